// A file adapter that syncs nothing. It proves today, so hunt/syscalls has to refuse it:
//   cc -shared -fPIC -o no-sync.so hunt/planted/no-sync.c && LD_PRELOAD=$PWD/no-sync.so hunt/syscalls
int fsync(int file) {
    return file < 0 ? -1 : 0;
}

int fdatasync(int file) {
    return fsync(file);
}
