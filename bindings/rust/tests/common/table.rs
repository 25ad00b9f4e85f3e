//! The library's own table of methods and properties.

#[repr(C)]
struct Row {
    class_id: u16,
    method_id: u16,
    fields: u8,
    carries_content: bool,
    wants_answer: bool,
    status: u8,
}

extern "C" {
    fn feksroum_method_at(k: u8) -> Row;
    fn feksroum_shape(class_id: u16, method_id: u16, kinds: *mut u8, room: usize) -> usize;
    fn feksroum_property_kind(place: u8) -> u8;
    fn feksroum_class_name(class_id: u16, out: *mut u8, room: usize) -> usize;
    fn feksroum_method_name(class_id: u16, method_id: u16, out: *mut u8, room: usize) -> usize;
    fn feksroum_field_name(class_id: u16, method_id: u16, place: u8, out: *mut u8, room: usize) -> usize;
    fn feksroum_property_name(place: u8, out: *mut u8, room: usize) -> usize;
}

/// A method as the library has it.
pub struct Shape {
    pub class_id: u16,
    pub method_id: u16,
    pub name: String,
    pub kinds: Vec<u8>,
    pub names: Vec<String>,
    pub carries_content: bool,
    pub wants_answer: bool,
}

/// What a function writes into a buffer of some bytes.
fn written(call: impl FnOnce(*mut u8, usize) -> usize) -> Vec<u8> {
    let mut out = vec![0; 64];
    let length = call(out.as_mut_ptr(), out.len());
    out.truncate(length);
    out
}

fn name(call: impl FnOnce(*mut u8, usize) -> usize) -> String {
    String::from_utf8(written(call)).unwrap()
}

pub fn methods() -> Vec<Shape> {
    // SAFETY: each call gets numbers, or the pointer and length of a buffer.
    unsafe {
        let rows = (0..=u8::MAX).map(|k| feksroum_method_at(k)).take_while(|row| row.status == 0);
        rows.map(|row| {
            let (class_id, method_id) = (row.class_id, row.method_id);
            let kinds = written(|out, room| feksroum_shape(class_id, method_id, out, room));
            assert_eq!(kinds.len(), usize::from(row.fields));
            let class = name(|out, room| feksroum_class_name(class_id, out, room));
            let method = name(|out, room| feksroum_method_name(class_id, method_id, out, room));
            let names = (0..row.fields).map(|place| name(|out, room| feksroum_field_name(class_id, method_id, place, out, room)));
            Shape {
                class_id,
                method_id,
                name: format!("{class}.{method}"),
                names: names.collect(),
                kinds,
                carries_content: row.carries_content,
                wants_answer: row.wants_answer,
            }
        })
        .collect()
    }
}

/// The kinds and names of the properties.
pub fn properties() -> Vec<(u8, String)> {
    // SAFETY: each call gets numbers, or the pointer and length of a buffer.
    unsafe {
        let kinds = (0..=u8::MAX).map(|place| feksroum_property_kind(place)).take_while(|kind| *kind != 0);
        (0..).zip(kinds).map(|(place, kind)| (kind, name(|out, room| feksroum_property_name(place, out, room)))).collect()
    }
}
