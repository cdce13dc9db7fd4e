//! The limit: the same rules in plain C, by the calls of limit.c.
side!(limit_read, limit_read_metres, limit_write);

extern "C" {
    fn limit_start();
}

/// Makes its tables; before any other call.
pub fn start() {
    unsafe { limit_start() }
}
