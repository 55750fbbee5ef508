//! The calls by either form, the literal one and the fast one.

use reference::calls::{LengthReply, LookUpReply, PlainReply, RankReply, REAL};
use reference::fast;
use reference::measure::Measure;

#[derive(Clone, Copy)]
pub struct Form {
    pub set_up: fn(&mut [u64], u64, u64) -> PlainReply,
    pub build: fn(&mut [u64], u64, u64, &[u64], &[u64], &[i32]) -> PlainReply,
    pub load: fn(&mut [u64], u64, u64, u16) -> PlainReply,
    pub insert: fn(&mut [u64], u64, Measure) -> RankReply,
    pub delete: fn(&mut [u64], u64) -> RankReply,
    pub look_up: fn(&[u64], u64) -> LookUpReply,
    pub write: fn(&[u64], &mut [u8]) -> LengthReply,
    pub read: fn(&mut [u64], &[u8]) -> PlainReply,
    pub list: fn(&[u8], &mut [u8]) -> LengthReply,
    pub pages: fn(&[u64], &mut [u8]) -> LengthReply,
}

pub const FORMS: [Form; 2] = [
    Form {
        set_up: |t, order, salt| REAL.set_up(t, order, salt),
        build: |t, order, salt, keys, lengths, corrections| {
            REAL.build(t, order, salt, keys, lengths, corrections)
        },
        load: |t, order, seed, count| REAL.load(t, order, seed, count),
        insert: |t, key, measure| REAL.insert(t, key, measure),
        delete: |t, key| REAL.delete(t, key),
        look_up: |t, key| REAL.look_up(t, key),
        write: |t, output| REAL.write_image(t, output),
        read: |t, bytes| REAL.read_image(t, bytes),
        list: |bytes, output| REAL.list(bytes, output),
        pages: |t, output| REAL.pages(t, output),
    },
    Form {
        set_up: fast::set_up,
        build: fast::build,
        load: fast::load,
        insert: fast::insert,
        delete: fast::delete,
        look_up: fast::look_up,
        write: fast::write_image,
        read: fast::read_image,
        list: fast::list,
        pages: fast::pages,
    },
];
