//! The model behind builder, reply check and issuer of the C headers, to test the C tests themselves:
//! `rustc --edition 2021 -O --crate-type staticlib tests/model/c_abi.rs --extern model=OUT/libmodel.rlib -o OUT/libmodel_c.a`

#[repr(C)]
pub struct Built {
    row: u64,
    length: u64,
}

#[repr(C)]
pub struct Checked {
    row: u64,
    start: u64,
    length: u64,
}

unsafe fn lent<'a>(bytes: *const u8, length: usize) -> &'a [u8] {
    if length == 0 {
        &[]
    } else {
        std::slice::from_raw_parts(bytes, length)
    }
}

#[no_mangle]
pub unsafe extern "C" fn sievelast_build(
    c: *const u8,
    c_len: usize,
    r: *const u8,
    r_len: usize,
    d: *const u8,
    d_len: usize,
    k: *const u8,
    k_len: usize,
    space: *mut u8,
    space_len: usize,
) -> Built {
    let space = if space_len == 0 { &mut [][..] } else { std::slice::from_raw_parts_mut(space, space_len) };
    let (row, length) = model::client::build(lent(c, c_len), lent(r, r_len), lent(d, d_len), lent(k, k_len), space);
    Built { row: row as u64, length: length as u64 }
}

#[no_mangle]
pub unsafe extern "C" fn sievelast_check(
    c: *const u8,
    c_len: usize,
    r: *const u8,
    r_len: usize,
    k: *const u8,
    k_len: usize,
    reply: *const u8,
    reply_len: usize,
) -> Checked {
    let (row, start, length) =
        model::client::check(lent(c, c_len), lent(r, r_len), lent(k, k_len), lent(reply, reply_len));
    Checked { row: row as u64, start: start as u64, length: length as u64 }
}

/// struct sievelast_credential of include/sievelast_records.h.
#[repr(C)]
pub struct Fields {
    expiry: u64,
    object: u32,
    version: u32,
    first: u32,
    end: u32,
    holder: u32,
    rights: u16,
    partition: u8,
    slot: u8,
    least: u8,
}

#[repr(C)]
pub struct Issued {
    row: u64,
    key: [u8; 32],
}

#[no_mangle]
pub unsafe extern "C" fn sievelast_issue(c: Fields, k: *const u8, k_len: usize, space: *mut u8, space_len: usize) -> Issued {
    let space = if space_len == 0 { &mut [][..] } else { std::slice::from_raw_parts_mut(space, space_len) };
    let c = model::records::Credential {
        mark: model::records::CREDENTIAL_MARK,
        partition: c.partition,
        slot: c.slot,
        object: c.object,
        version: c.version,
        rights: c.rights,
        least: c.least,
        zero: 0,
        first: c.first,
        end: c.end,
        expiry: c.expiry,
        holder: c.holder,
    };
    let (row, key) = model::client::issue(lent(k, k_len), &c, space);
    Issued { row: row as u64, key }
}
