//! Nothing is lost: the program is ended at every call that touches a file, its calls are made to fail one by one, the
//! disk is full, the folder or the file is read-only, several change one file at once, and files that hold no table are
//! refused. After each of them the file is the old table or the new one, byte for byte.

mod crash;
mod disk;
mod failing;
mod folder;
mod journal;
mod moved;
mod person;
mod process;
mod refused;
mod rights;
mod scenario;
mod shim;
mod together;
