//! Two saves in one second: written, checked, counted and read back from Rust. Both are there. `make examples` builds and runs it.

/// As in moortangle.h, with its fields in its order.
#[repr(C)]
struct Written {
    answer: u32,
    told: u64,
}

#[repr(C)]
struct Record {
    answer: u32,
    told: u64,
    end: u32,
    code: u32,
    kind: u32,
    parameter: u32,
    count: u32,
}

#[repr(C)]
struct Place {
    answer: u32,
    told: u64,
    below: u64,
}

#[repr(C)]
struct Stream {
    answer: u32,
    told: u64,
    records: u64,
    values: u64,
}

#[rustfmt::skip]
#[link(name = "moortangle", kind = "static")]
unsafe extern "C" {
    fn moortangle_write(buffer: *mut u8, bytes: usize, start: u64, code: u32, parameter: u32, kind: u32, values: *const u32, count: usize) -> Written;
    fn moortangle_write_end(buffer: *mut u8, bytes: usize, start: u64) -> Written;
    fn moortangle_check(buffer: *const u8, bytes: usize) -> Stream;
    fn moortangle_search(buffer: *const u8, bytes: usize, start: u64, stop: u64, instant: u32) -> Place;
    fn moortangle_read(buffer: *const u8, bytes: usize, start: u64, stop: u64, kind: u32, list: *mut u32, room: usize) -> Record;
}

const DELTA: u32 = 2;
const INSTANTS: u32 = 1;

/// A slice's pointer and length are all that the library assumes, so each call below is sound.
fn write(buffer: &mut [u8], start: u64, instants: &[u32]) -> Written {
    let (values, count) = (instants.as_ptr(), instants.len());
    unsafe { moortangle_write(buffer.as_mut_ptr(), buffer.len(), start, DELTA, 0, INSTANTS, values, count) }
}

fn write_end(buffer: &mut [u8], start: u64) -> Written {
    unsafe { moortangle_write_end(buffer.as_mut_ptr(), buffer.len(), start) }
}

fn check(stream: &[u8]) -> Stream {
    unsafe { moortangle_check(stream.as_ptr(), stream.len()) }
}

fn search(stream: &[u8], start: u64, instant: u32) -> Place {
    unsafe { moortangle_search(stream.as_ptr(), stream.len(), start, 8 * stream.len() as u64, instant) }
}

fn read(stream: &[u8], start: u64, list: &mut [u32]) -> Record {
    let stop = 8 * stream.len() as u64;
    unsafe { moortangle_read(stream.as_ptr(), stream.len(), start, stop, INSTANTS, list.as_mut_ptr(), list.len()) }
}

fn accepted(call: &str, answer: u32, told: u64) {
    assert!(answer == 0, "{call} was refused: answer {answer}, told {told}");
}

fn main() {
    let second = 1_789_430_401;
    let mut buffer = [0; 64];
    let record = write(&mut buffer, 0, &[second, second]);
    accepted("write", record.answer, record.told);
    // The next record would start at record.told; here the stream ends.
    let end = write_end(&mut buffer, record.told);
    accepted("write_end", end.answer, end.told);

    let bytes = &buffer[..(end.told / 8) as usize];
    let stream = check(bytes);
    accepted("check", stream.answer, stream.told);
    println!("{} bytes, {} record, {} values", bytes.len(), stream.records, stream.values);

    // So many are below the next second, less those below this one.
    let next = search(bytes, 0, second + 1);
    let this = search(bytes, 0, second);
    accepted("search", next.answer.max(this.answer), next.told);
    println!("{} saves in second {second}", next.below - this.below);

    let mut list = [0; 4096];
    let read = read(bytes, 0, &mut list);
    accepted("read", read.answer, read.told);
    for (i, second) in list[..read.count as usize].iter().enumerate() {
        println!("save {i}: second {second}");
    }
}
