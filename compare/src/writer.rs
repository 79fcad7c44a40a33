//! "Output is written the same way: `<`, `>`, `&` as `&lt;`, `&gt;`, `&amp;`,
//! every other leaf as its byte, an empty element as `<a></a>`."

pub fn start_tag(name: &[u8], out: &mut Vec<u8>) {
    out.push(b'<');
    out.extend_from_slice(name);
    out.push(b'>');
}

pub fn end_tag(name: &[u8], out: &mut Vec<u8>) {
    out.extend_from_slice(b"</");
    out.extend_from_slice(name);
    out.push(b'>');
}

pub fn character(leaf: u8, out: &mut Vec<u8>) {
    match leaf {
        b'<' => out.extend_from_slice(b"&lt;"),
        b'>' => out.extend_from_slice(b"&gt;"),
        b'&' => out.extend_from_slice(b"&amp;"),
        other => out.push(other),
    }
}
