//! A process that reads or writes beside what is lent, or writes what is lent
//! only to be read, dies of it.

mod common;

use btreap::Question;
use common::{accepted_calls, table};
use compare::archive::Lent;
use compare::call::Call;
use compare::pages::{Access, Cell, Flush, Pages};
use std::os::raw::c_int;
use std::os::unix::process::ExitStatusExt;
use std::process::ExitStatus;

/// SIGSEGV.
const FATAL: Option<c_int> = Some(11);

extern "C" {
    fn fork() -> c_int;
    fn waitpid(process: c_int, status: *mut c_int, options: c_int) -> c_int;
    fn _exit(status: c_int) -> !;
}

/// The signal that ends a process which does this and nothing else, if one does.
fn signal_at(touch: impl FnOnce()) -> Option<c_int> {
    let mut status = 0;
    // SAFETY: the child takes no lock and allocates nothing before it ends.
    unsafe {
        let child = fork();
        if child == 0 {
            touch();
            _exit(0);
        }
        assert!(child > 0 && waitpid(child, &mut status, 0) == child);
    }
    ExitStatus::from_raw(status).signal()
}

fn reading<T: Cell>(pages: &Pages<T>, place: isize) -> Option<c_int> {
    let cell = pages.start().wrapping_offset(place);
    // SAFETY: in a process that may die of it.
    signal_at(|| _ = unsafe { cell.read_volatile() })
}

fn writing<T: Cell>(pages: &Pages<T>, place: isize) -> Option<c_int> {
    let cell = pages.start().wrapping_offset(place).cast::<u8>();
    // SAFETY: as above.
    signal_at(|| unsafe { cell.write_volatile(1) })
}

/// Every cell may be touched; the next one at the flush end may not, nor any
/// that is a page or more away at the other.
fn is_guarded<T: Cell>(content: &[T]) {
    let last = content.len() as isize - 1;
    for (flush, beside, far) in [
        (Flush::Start, -1, last + 4096),
        (Flush::End, last + 1, -4096),
    ] {
        let pages = Pages::new(content, flush, Access::Write);
        for touch in [reading, writing] {
            assert_eq!([touch(&pages, 0), touch(&pages, last)], [None; 2]);
            assert_eq!([touch(&pages, beside), touch(&pages, far)], [FATAL; 2]);
        }
        let pages = Pages::new(content, flush, Access::Read);
        assert_eq!([0, last].map(|place| reading(&pages, place)), [None; 2]);
        assert_eq!([0, last].map(|place| writing(&pages, place)), [FATAL; 2]);
        assert_eq!(reading(&pages, beside), FATAL);
    }
}

#[test]
fn a_touch_beside_the_content_is_fatal() {
    for length in [1, 3, 511, 512, 513] {
        is_guarded(&vec![7u64; length]);
    }
    for length in [1, 15, 4095, 4096, 4097] {
        is_guarded(&vec![7u8; length]);
    }
    for length in [1, 3, 1023, 1024, 1025] {
        is_guarded(&vec![-7i32; length]);
    }
    for length in [1, 2, 170, 171, 512] {
        is_guarded(&vec![Question::new(7); length]);
    }
}

#[test]
fn a_touch_where_nothing_is_lent_is_fatal() {
    let nothing = Pages::<u64>::new(&[], Flush::End, Access::Write);
    for place in [-1, 0, 1] {
        assert_eq!(reading(&nothing, place), FATAL);
    }
}

#[test]
fn a_write_is_fatal_to_what_the_call_only_reads() {
    for call in accepted_calls() {
        let lent = Lent::new(&call, &table(), Flush::End);
        let changes = matches!(
            call,
            Call::SetUp { .. }
                | Call::Build { .. }
                | Call::Load { .. }
                | Call::Insert { .. }
                | Call::Delete { .. }
                | Call::Read { .. }
        );
        let end = if changes { None } else { FATAL };
        assert_eq!(writing(&lent.table, 0), end, "{call:?}");
        assert_eq!(writing(&lent.keys, 0), FATAL, "{call:?}");
        assert_eq!(writing(&lent.lengths, 0), FATAL, "{call:?}");
        assert_eq!(writing(&lent.corrections, 0), FATAL, "{call:?}");
        assert_eq!(writing(&lent.image, 0), FATAL, "{call:?}");
        let asks = matches!(call, Call::LookUpBatch { .. });
        let end = if asks { None } else { FATAL };
        assert_eq!(writing(&lent.questions, 0), end, "{call:?}");
    }
}
