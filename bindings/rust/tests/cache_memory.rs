//! What a cache takes: never more than it says, in its opening, its calls and its renewals, by the C library's own blocks; and refusals of
//! that memory, one block after another.
use std::cell::Cell;
use std::ffi::{c_int, c_void};
use vbr::{
    Cache, CacheOpenError, CacheOptions, OpenError, Record, RecordKey, Refusal, RenewError, ShapeError, SmallBytes, SmallStr,
};

extern "C" {
    fn __libc_malloc(size: usize) -> *mut c_void;
    fn __libc_calloc(count: usize, size: usize) -> *mut c_void;
    fn __libc_realloc(block: *mut c_void, size: usize) -> *mut c_void;
    fn __libc_memalign(alignment: usize, size: usize) -> *mut c_void;
    fn __libc_free(block: *mut c_void);
    fn malloc_usable_size(block: *mut c_void) -> usize;
}

thread_local! {
    /// How many bytes this thread has, and had at most.
    static LIVE: Cell<isize> = const { Cell::new(0) };
    static PEAK: Cell<isize> = const { Cell::new(0) };
    /// How many blocks it is given before all are refused.
    static GRANTED: Cell<usize> = const { Cell::new(usize::MAX) };
}

fn is_refused() -> bool {
    let granted = GRANTED.get();
    GRANTED.set(granted.saturating_sub(usize::from(granted < usize::MAX)));
    granted == 0
}

fn bytes_of(block: *mut c_void) -> isize {
    // SAFETY: it is a block of the C library, or null.
    isize::try_from(unsafe { malloc_usable_size(block) }).expect("less than half of all")
}

fn counted(block: *mut c_void) -> *mut c_void {
    LIVE.set(LIVE.get() + bytes_of(block));
    PEAK.set(PEAK.get().max(LIVE.get()));
    block
}

fn discounted(block: *mut c_void) {
    LIVE.set(LIVE.get() - bytes_of(block));
}

#[no_mangle]
extern "C" fn malloc(size: usize) -> *mut c_void {
    // SAFETY: as malloc.
    if is_refused() {
        std::ptr::null_mut()
    } else {
        counted(unsafe { __libc_malloc(size) })
    }
}

#[no_mangle]
extern "C" fn calloc(count: usize, size: usize) -> *mut c_void {
    // SAFETY: as calloc.
    if is_refused() {
        std::ptr::null_mut()
    } else {
        counted(unsafe { __libc_calloc(count, size) })
    }
}

#[no_mangle]
extern "C" fn realloc(block: *mut c_void, size: usize) -> *mut c_void {
    if is_refused() {
        return std::ptr::null_mut();
    }
    discounted(block);
    // SAFETY: as realloc.
    let moved = unsafe { __libc_realloc(block, size) };
    counted(if moved.is_null() { block } else { moved });
    moved
}

#[no_mangle]
extern "C" fn posix_memalign(place: *mut *mut c_void, alignment: usize, size: usize) -> c_int {
    const ENOMEM: c_int = 12;
    if is_refused() {
        return ENOMEM;
    }
    // SAFETY: as posix_memalign.
    unsafe {
        let block = counted(__libc_memalign(alignment, size));
        *place = block;
        if block.is_null() {
            ENOMEM
        } else {
            0
        }
    }
}

#[no_mangle]
extern "C" fn free(block: *mut c_void) {
    discounted(block);
    // SAFETY: as free.
    unsafe { __libc_free(block) }
}

/// What a call tells that gets no more than this many blocks.
fn granted<T>(blocks: usize, call: impl FnOnce() -> T) -> T {
    GRANTED.set(blocks);
    let told = call();
    GRANTED.set(usize::MAX);
    told
}

/// The peak of this much in bytes, beyond what is there before.
fn peak_of(call: impl FnOnce()) -> usize {
    let before = LIVE.get();
    PEAK.set(before);
    call();
    usize::try_from(PEAK.get() - before).expect("it rises")
}

fn takes_what_it_says<K: RecordKey, V: Record>(bytes: usize, handles: usize, key: impl Fn(u32) -> K, value: V) {
    let mut most = 0;
    let peak = peak_of(|| {
        let cache: Cache<K, V> = Cache::open_bytes(bytes, handles).expect("enough bytes");
        most = cache.bytes();
        let live = LIVE.get();
        let mut mine = cache.lend_wait();
        for each in 0..cache.capacity() + 100 {
            mine.put(key(each), value).expect("an entry that goes");
        }
        assert_eq!(LIVE.get(), live, "a call takes memory");
        drop(mine);
        cache.renew().expect("memory");
        assert_eq!(cache.statistics().length, u64::from(cache.capacity()));
    });
    assert!(peak <= most && most <= bytes, "{peak} bytes of {most}, of {bytes}");
    assert!(peak >= most / 10 * 9 && most >= bytes / 20 * 17, "only {peak} bytes of {most}, of {bytes}");
}

#[test]
fn never_more_than_it_says() {
    for bytes in [100_000, 300_000, 1_000_000, 3_000_000, 20_000_000] {
        for handles in [1, 4] {
            takes_what_it_says(bytes, handles, u64::from, 7_u64);
            takes_what_it_says(bytes, handles, u64::from, [7_u64; 8]);
        }
    }
    let text = |it: u32| SmallStr::<64>::new(&it.to_string()).expect("it is short");
    takes_what_it_says(20_000_000, 4, text, [7_u64; 128]);
    takes_what_it_says(20_000_000, 4, u64::from, SmallBytes::<4_096>::default());
    takes_what_it_says(20_000_000, 30, u64::from, SmallBytes::<4_096>::default());
}

#[test]
fn too_few_bytes() {
    type Pages = Cache<u64, SmallBytes<4_096>>;
    for handles in [1, 4, 64] {
        let Err(CacheOpenError::TooFewBytes { bytes: 1_000, least }) = Pages::open_bytes(1_000, handles) else {
            panic!("a cache in a thousand bytes");
        };
        let told = Pages::open_bytes(least - 1, handles).map(drop);
        assert_eq!(told, Err(CacheOpenError::TooFewBytes { bytes: least - 1, least }));
        let cache = Pages::open_bytes(least, handles).expect("enough for one entry");
        assert_eq!((cache.capacity(), cache.bytes()), (1, least));
    }
    let told = CacheOpenError::TooFewBytes { bytes: 7, least: 900 };
    assert_eq!(told.to_string(), "7 bytes are too few: a cache of one entry takes 900");
    let no_handles = OpenError::Shape(ShapeError::Handles(0));
    assert_eq!(Pages::open_bytes(1 << 20, 0).map(drop), Err(CacheOpenError::Refused(no_handles)));
    assert_eq!(Pages::open_for(8, 0).map(drop), Err(no_handles));
    for entries in [0, vbr::MAX_SLOTS] {
        assert_eq!(Pages::open_for(entries, 1).map(drop), Err(OpenError::Shape(ShapeError::Slots(entries))));
    }
}

/// Each block that an opening and a renewal ask for is refused in turn; calls ask for none.
#[test]
fn refused_memory() {
    let options = || CacheOptions::new().renewed_by_program().with_last_epoch(40);
    let open = || options().open_for::<SmallStr<16>, [u64; 12]>(100, 2);
    drop(open().expect("memory")); // what the program has once and for all
    let mut blocks = 0;
    let live = LIVE.get();
    let cache = loop {
        match granted(blocks, open) {
            Ok(cache) => break cache,
            Err(why) => assert_eq!((why, LIVE.get()), (OpenError::Memory, live)),
        }
        blocks += 1;
    };
    assert!(blocks > 10);
    let key = SmallStr::new("five").expect("it is short");
    granted(0, || {
        let loaded = cache.get_or_load(key, || Ok::<_, ()>([1; 12]));
        assert_eq!((loaded, cache.get(key), cache.remove(key)), (Ok([1; 12]), Ok(Some([1; 12])), Ok(Some([1; 12]))));
        while cache.put(key, [7; 12]) != Err(Refusal::EpochSpent) {}
    });
    for blocks in 0.. {
        let told = granted(blocks, || cache.renew());
        assert_eq!(cache.get(key), Ok(Some([7; 12])));
        if told.is_ok() {
            assert!(blocks > 4);
            break;
        }
        assert_eq!((told, cache.put(key, [8; 12])), (Err(RenewError::Memory), Err(Refusal::EpochSpent)));
    }
    assert_eq!(cache.put(key, [8; 12]), Ok(Some([7; 12])));
}
