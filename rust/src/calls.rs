// Made of kupaldiz.h by tools/rust-calls.py. ffi.rs and common/watched.rs have the macros.

constants! {
    DONE = 0;
    NO_MEMORY = 1;
    BAD_SETTINGS = 2;
    NAME_TAKEN = 3;
    NO_SLOT = 4;
    HISTORY_FULL = 5;
    NOT_FOUND = 6;
    INSIDE = 7;
    SECTIONS_SPENT = 8;
    PASSIVE_FULL = 10;
    WRONG_CPU = 11;
    NOT_HELD = 12;
    LOCAL_FULL = 13;
    NOT_RETIRED = 14;
    MISSING_CPU = 15;
    STILL_HELD = 16;
    WAITING = 17;
    TOO_DEEP = 18;
    NEEDS_DRIVER = 19;
    OUTSIDE = 64;
    EMPTY_HANDLE = 65;
    FULL_HANDLE = 66;
    BAD_KIND = 68;
    BAD_NAME = 69;
    NAME_TOO_LONG = 71;
    COLLECTED = 73;
    NOT_COLLECTED = 74;
    NO_ROOM = 75;
    NOT_BEGUN = 76;
    NULL = 77;
    OTHER_LIMITS = 78;
    NO_CPU = 79;
    NO_THREAD = 81;
    CROWDED = 82;
    INTERFACE = 1;
    DRIVER = 2;
    GRACE = 0;
    PASSIVE = 1;
    LOCAL = 2;
    FREED = 3;
}

calls! {
    fn kupaldiz_name_of_bytes(bytes: *const c_void, length: usize, name: *mut Name) -> c_uint;
    fn kupaldiz_name_of_id(id: u64, name: *mut Name) -> c_uint;
    fn kupaldiz_id_of_name(name: *const Name, id: *mut u64) -> c_uint;
    fn kupaldiz_name_format(name: *const Name, text: *mut c_char, room: usize) -> c_uint;
    fn kupaldiz_open(settings: *const Settings, keeper: *mut Keeper, cpus: *mut Cpu, count: usize)
        -> c_uint;
    fn kupaldiz_close(keeper: *mut Keeper, cpus: *mut Cpu, count: usize) -> c_uint;
    fn kupaldiz_settings_of(keeper: *const Keeper, settings: *mut Settings) -> c_uint;
    fn kupaldiz_enter(cpu: *mut Cpu) -> c_uint;
    fn kupaldiz_exit(cpu: *mut Cpu) -> c_uint;
    fn kupaldiz_depth(cpu: *const Cpu, depth: *mut u64) -> c_uint;
    fn kupaldiz_look_up(cpu: *mut Cpu, kind: c_uint, name: *const Name, found: *mut Entry) ->
        c_uint;
    fn kupaldiz_find(cpu: *mut Cpu, kind: c_uint, name: *const Name, found: *mut Entry) -> c_uint;
    fn kupaldiz_enter_find(cpu: *mut Cpu, kind: c_uint, name: *const Name, found: *mut Entry) ->
        c_uint;
    fn kupaldiz_walk(cpu: *mut Cpu, row: *mut Entry, room: usize, count: *mut usize) -> c_uint;
    fn kupaldiz_get(cpu: *mut Cpu, kind: c_uint, name: *const Name, reference: *mut Passive) ->
        c_uint;
    fn kupaldiz_acquire(cpu: *mut Cpu, entry: *const Entry, reference: *mut Passive) -> c_uint;
    fn kupaldiz_copy(cpu: *mut Cpu, from: *const Passive, copy: *mut Passive) -> c_uint;
    fn kupaldiz_release(cpu: *mut Cpu, reference: *mut Passive) -> c_uint;
    fn kupaldiz_held(cpu: *const Cpu, number: u64, held: *mut bool) -> c_uint;
    fn kupaldiz_get_local(cpu: *mut Cpu, kind: c_uint, name: *const Name, local: *mut Local) ->
        c_uint;
    fn kupaldiz_acquire_local(cpu: *mut Cpu, entry: *const Entry, local: *mut Local) -> c_uint;
    fn kupaldiz_copy_local(from: *mut Local, copy: *mut Local) -> c_uint;
    fn kupaldiz_release_local_locked(keeper: *mut Keeper, cpu: *mut Cpu, local: *mut Local) ->
        c_uint;
    fn kupaldiz_try_release_local(cpu: *mut Cpu, local: *mut Local) -> c_uint;
    fn kupaldiz_forget_local(local: *mut Local) -> c_uint;
    fn kupaldiz_attach(keeper: *mut Keeper, cpu: *mut Cpu, name: *const Name, value: u64, made: *mut
        Entry) -> c_uint;
    fn kupaldiz_attach_iface(keeper: *mut Keeper, cpu: *mut Cpu, driver: *const Name, name: *const
        Name, value: u64, made: *mut Entry) -> c_uint;
    fn kupaldiz_replace(keeper: *mut Keeper, cpu: *mut Cpu, name: *const Name, value: u64, gone:
        *mut Entry, made: *mut Entry) -> c_uint;
    fn kupaldiz_replace_iface(keeper: *mut Keeper, cpu: *mut Cpu, driver: *const Name, name: *const
        Name, value: u64, gone: *mut Entry, made: *mut Entry) -> c_uint;
    fn kupaldiz_detach(keeper: *mut Keeper, cpu: *mut Cpu, kind: c_uint, name: *const Name, gone:
        *mut Entry) -> c_uint;
    fn kupaldiz_room(keeper: *const Keeper) -> c_uint;
    fn kupaldiz_destroy(keeper: *mut Keeper, number: u64, met: *mut Met) -> c_uint;
    fn kupaldiz_perform_begin(keeper: *mut Keeper, cpu: *mut Cpu, wait: *mut Wait) -> c_uint;
    fn kupaldiz_perform_turn(keeper: *mut Keeper, cpu: *mut Cpu, wait: *mut Wait, waited: *mut u64)
        -> c_uint;
    fn kupaldiz_audit(keeper: *mut Keeper, cpus: *mut Cpu, count: usize, list: *mut Balance, room:
        usize, length: *mut usize) -> c_uint;
}

texts! {
    fn kupaldiz_strerror(result: c_uint) -> *const c_char;
    fn kupaldiz_version() -> *const c_char;
    fn kupaldiz_limits(limits: *mut Limits);
}
