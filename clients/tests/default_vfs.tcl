# default_vfs.tcl FILE: a test file of SQLite's, run by its testfixture over eNVy's VFS as the default one. EXTENSION names
# the extension, ENVYVFS_DEFAULT is set. SQLite's own VFS is the default again whenever SQLite is initialized, so the
# extension is loaded then.
rename sqlite3_initialize own_initialize
proc sqlite3_initialize {} {
    set answer [own_initialize]
    sqlite3 loader :memory: -vfs unix
    loader enable_load_extension 1
    loader eval {select load_extension($::env(EXTENSION))}
    loader close
    return $answer
}
sqlite3_initialize
set argv0 [lindex $argv 0]
set argv [lrange $argv 1 end]
source $argv0
