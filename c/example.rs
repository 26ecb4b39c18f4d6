//! The library from Rust: a thin safe wrapper of the calls for C, and a program that compares what they give with what
//! the RFCs say. It ends with status 1 where something differs.

mod paddlesepia {
    use std::fmt;

    /// The calls as `paddlesepia.h` declares them.
    mod ffi {
        use super::{Answer, Chain, Record, Tsig};

        extern "C" {
            pub fn psp_key_tag(data: *const u8, data_len: usize, tag: *mut u16) -> u32;
            pub fn psp_ds_digest(
                owner: *const u8, owner_len: usize, data: *const u8, data_len: usize, digest_type: u8, out: *mut u8,
                out_size: usize, out_len: *mut usize,
            ) -> u32;
            pub fn psp_hmac(
                hash: u32, key: *const u8, key_len: usize, message: *const u8, message_len: usize, out: *mut u8,
                out_size: usize, out_len: *mut usize,
            ) -> u32;
            pub fn psp_name_from_text(
                text: *const u8, text_len: usize, out: *mut u8, out_size: usize, out_len: *mut usize,
            ) -> u32;
            pub fn psp_name_to_text(
                name: *const u8, name_len: usize, out: *mut u8, out_size: usize, out_len: *mut usize,
            ) -> u32;
            pub fn psp_nsec3_hash(
                name: *const u8, name_len: usize, salt: *const u8, salt_len: usize, iterations: u16, out: *mut u8,
                out_size: usize, out_len: *mut usize,
            ) -> u32;
            pub fn psp_tsig_sign(
                hash: u32, key: *const u8, key_len: usize, name: *const u8, name_len: usize, fudge: u16, time: u64,
                request: *const u8, request_len: usize, out: *mut u8, out_size: usize, out_len: *mut usize,
                chain: *mut Chain,
            ) -> u32;
            pub fn psp_tsig_check(
                hash: u32, key: *const u8, key_len: usize, name: *const u8, name_len: usize, chain: *mut Chain,
                message: *const u8, message_len: usize, answer: *mut Answer,
            ) -> u32;
            pub fn psp_tsig_read(message: *const u8, message_len: usize, tsig: *mut Tsig) -> u32;
            pub fn psp_records(
                message: *const u8, message_len: usize, out: *mut Record, out_size: usize, out_len: *mut usize,
            ) -> u32;
            pub fn psp_canonical_data(
                message: *const u8, message_len: usize, start: usize, out: *mut u8, out_size: usize,
                out_len: *mut usize,
            ) -> u32;
            pub fn psp_rrsig_input(
                message: *const u8, message_len: usize, section: u32, owner: *const u8, owner_len: usize,
                dns_class: u16, start: usize, out: *mut u8, out_size: usize, out_len: *mut usize,
            ) -> u32;
        }
    }

    /// Why a call was refused: a number of `enum psp_status`.
    #[derive(Clone, Copy, Debug, PartialEq, Eq)]
    pub struct Refused(pub u32);

    pub const OUT_TOO_SHORT: Refused = Refused(1);
    pub const EMPTY_LABEL: Refused = Refused(8);
    pub const TRUNCATED_MAC: Refused = Refused(21);
    pub const WRONG_MAC: Refused = Refused(22);

    impl fmt::Display for Refused {
        fn fmt(&self, f: &mut fmt::Formatter<'_>) -> fmt::Result {
            write!(f, "refused with status {}", self.0)
        }
    }

    impl std::error::Error for Refused {}

    /// The hash functions of HMAC.
    #[derive(Clone, Copy, Debug, PartialEq, Eq)]
    #[repr(u32)]
    #[allow(dead_code)]
    pub enum Hash {
        Sha256 = 256,
        Sha384 = 384,
        Sha512 = 512,
    }

    /// The sections of a message in which records stand.
    #[derive(Clone, Copy, Debug, PartialEq, Eq)]
    #[repr(u32)]
    #[allow(dead_code)]
    pub enum Section {
        Answer = 1,
        Authority = 2,
        Additional = 3,
    }

    /// What stands of a signed request and the answers accepted so far.
    #[derive(Clone, Debug, PartialEq, Eq)]
    #[repr(C)]
    pub struct Chain {
        request_time: u64,
        time: u64,
        first: u32,
        mac_len: u32,
        mac: [u8; 64],
    }

    impl Chain {
        const EMPTY: Chain = Chain { request_time: 0, time: 0, first: 0, mac_len: 0, mac: [0; 64] };

        /// The last MAC: that of the request or of the last answer.
        pub fn mac(&self) -> &[u8] {
            &self.mac[..self.mac_len as usize]
        }
    }

    /// What an accepted answer tells.
    #[derive(Clone, Copy, Debug, Default, PartialEq, Eq)]
    #[repr(C)]
    pub struct Answer {
        pub server_time: u64,
        pub tsig_error: u16,
        pub rcode: u16,
        pub has_time: u32,
    }

    /// The transaction signature of a message, as it says itself.
    #[derive(Clone, Copy, Debug, Default, PartialEq, Eq)]
    #[repr(C)]
    pub struct Tsig {
        pub time: u64,
        pub start: u32,
        pub mac_len: u32,
        pub hash: u32,
        pub fudge: u16,
        pub error: u16,
    }

    /// Where a record of a message stands.
    #[derive(Clone, Copy, Debug, Default, PartialEq, Eq)]
    #[repr(C)]
    pub struct Record {
        pub start: u32,
        pub length: u32,
        pub section: u16,
        pub rtype: u16,
    }

    /// A key that is shared with a server. Its name is in wire form, the fudge in seconds.
    pub struct TsigKey<'a> {
        pub hash: Hash,
        pub key: &'a [u8],
        pub name: &'a [u8],
        pub fudge: u16,
    }

    fn done(status: u32) -> Result<(), Refused> {
        if status == 0 {
            Ok(())
        } else {
            Err(Refused(status))
        }
    }

    /// What a call writes, which is handed room for so many items, and once more for as many as it asks for. The call is
    /// given a pointer to room for the number of items beside it, and writes no more than these.
    fn written<T: Clone + Default>(
        room: usize, mut call: impl FnMut(*mut T, usize, &mut usize) -> u32,
    ) -> Result<Vec<T>, Refused> {
        let mut out = vec![T::default(); room];
        let mut len = 0;
        let mut answer = done(call(out.as_mut_ptr(), out.len(), &mut len));
        if answer == Err(OUT_TOO_SHORT) {
            out = vec![T::default(); len];
            answer = done(call(out.as_mut_ptr(), out.len(), &mut len));
        }
        answer?;
        out.truncate(len);
        Ok(out)
    }

    // SAFETY of each call below: a pointer and a length are those of one slice, or of the room that `written` hands in; what
    // is written are other objects than what is read; the structs are laid out as the header's.

    /// The tag of the DNSKEY with these data (RFC 4034 appendix B).
    pub fn key_tag(data: &[u8]) -> Result<u16, Refused> {
        let mut tag = 0;
        done(unsafe { ffi::psp_key_tag(data.as_ptr(), data.len(), &mut tag) })?;
        Ok(tag)
    }

    /// The digest of a DNSKEY in a DS (RFC 4034 5.1.4).
    pub fn ds_digest(owner: &[u8], data: &[u8], digest_type: u8) -> Result<Vec<u8>, Refused> {
        written(48, |out, size, len| unsafe {
            ffi::psp_ds_digest(owner.as_ptr(), owner.len(), data.as_ptr(), data.len(), digest_type, out, size, len)
        })
    }

    /// HMAC of a message (RFC 2104).
    pub fn hmac(hash: Hash, key: &[u8], message: &[u8]) -> Result<Vec<u8>, Refused> {
        written(64, |out, size, len| unsafe {
            ffi::psp_hmac(hash as u32, key.as_ptr(), key.len(), message.as_ptr(), message.len(), out, size, len)
        })
    }

    /// The wire form of the name that a text spells (RFC 1035 5.1).
    pub fn name_from_text(text: &str) -> Result<Vec<u8>, Refused> {
        written(255, |out, size, len| unsafe { ffi::psp_name_from_text(text.as_ptr(), text.len(), out, size, len) })
    }

    /// The text of a name in wire form (RFC 1035 5.1), which is ASCII.
    pub fn name_to_text(name: &[u8]) -> Result<String, Refused> {
        let text = written(1004, |out, size, len| unsafe {
            ffi::psp_name_to_text(name.as_ptr(), name.len(), out, size, len)
        })?;
        Ok(text.into_iter().map(char::from).collect())
    }

    /// The hash of a name as NSEC3 records have it (RFC 5155 5).
    pub fn nsec3_hash(name: &[u8], salt: &[u8], iterations: u16) -> Result<Vec<u8>, Refused> {
        written(20, |out, size, len| unsafe {
            ffi::psp_nsec3_hash(name.as_ptr(), name.len(), salt.as_ptr(), salt.len(), iterations, out, size, len)
        })
    }

    impl TsigKey<'_> {
        /// Signs a request that is sent at `time`, in seconds from 1970 on (RFC 8945 5.1).
        pub fn sign(&self, request: &[u8], time: u64) -> Result<(Vec<u8>, Chain), Refused> {
            let mut chain = Chain::EMPTY;
            let signed = written(request.len() + 512, |out, size, len| unsafe {
                ffi::psp_tsig_sign(
                    self.hash as u32,
                    self.key.as_ptr(),
                    self.key.len(),
                    self.name.as_ptr(),
                    self.name.len(),
                    self.fudge,
                    time,
                    request.as_ptr(),
                    request.len(),
                    out,
                    size,
                    len,
                    &mut chain,
                )
            })?;
            Ok((signed, chain))
        }

        /// Checks the next answer and moves the chain behind it (RFC 8945 5.2 to 5.4).
        pub fn check(&self, chain: &mut Chain, message: &[u8]) -> Result<Answer, Refused> {
            let mut answer = Answer::default();
            done(unsafe {
                ffi::psp_tsig_check(
                    self.hash as u32,
                    self.key.as_ptr(),
                    self.key.len(),
                    self.name.as_ptr(),
                    self.name.len(),
                    chain,
                    message.as_ptr(),
                    message.len(),
                    &mut answer,
                )
            })?;
            Ok(answer)
        }
    }

    /// What the transaction signature of a message says, unchecked.
    pub fn tsig_read(message: &[u8]) -> Result<Tsig, Refused> {
        let mut tsig = Tsig::default();
        done(unsafe { ffi::psp_tsig_read(message.as_ptr(), message.len(), &mut tsig) })?;
        Ok(tsig)
    }

    /// Where the records of a message stand, in their order.
    pub fn records(message: &[u8]) -> Result<Vec<Record>, Refused> {
        written(64, |out, size, len| unsafe { ffi::psp_records(message.as_ptr(), message.len(), out, size, len) })
    }

    /// The data of the record that starts at `start` in canonical form (RFC 4034 6.2).
    pub fn canonical_data(message: &[u8], start: usize) -> Result<Vec<u8>, Refused> {
        written(512, |out, size, len| unsafe {
            ffi::psp_canonical_data(message.as_ptr(), message.len(), start, out, size, len)
        })
    }

    /// The octets that the RRSIG at `start` covers (RFC 4034 3.1.8.1).
    pub fn rrsig_input(
        message: &[u8], section: Section, owner: &[u8], dns_class: u16, start: usize,
    ) -> Result<Vec<u8>, Refused> {
        written(2048, |out, size, len| unsafe {
            ffi::psp_rrsig_input(
                message.as_ptr(),
                message.len(),
                section as u32,
                owner.as_ptr(),
                owner.len(),
                dns_class,
                start,
                out,
                size,
                len,
            )
        })
    }
}

use paddlesepia::{Hash, Refused, Section, TsigKey};
use std::process::ExitCode;

const KEY: TsigKey<'static> =
    TsigKey { hash: Hash::Sha256, key: b"a secret that both sides share..", name: b"\x03key\x07example\0", fudge: 300 };

const SENT: u64 = 1_700_000_000;

/// Octets of their hexadecimal digits, between which blanks may stand.
fn octets(digits: &str) -> Vec<u8> {
    let digits: Vec<u8> = digits.chars().filter_map(|c| c.to_digit(16)).map(|digit| digit as u8).collect();
    digits.chunks(2).map(|pair| pair[0] << 4 | pair[1]).collect()
}

/// Says whether something holds that must hold.
fn expect(what: &str, right: bool) -> bool {
    println!("  {what}: {}", if right { "yes" } else { "NO" });
    right
}

fn names() -> Result<bool, Refused> {
    println!("names");
    let name = paddlesepia::name_from_text("www.Example.com")?;
    Ok(expect("as in RFC 1035", name == b"\x03www\x07Example\x03com\0")
        & expect("the same, with a dot", paddlesepia::name_to_text(&name)? == "www.Example.com.")
        & expect("an empty label is refused", paddlesepia::name_from_text("a..b") == Err(paddlesepia::EMPTY_LABEL)))
}

fn keys() -> Result<bool, Refused> {
    println!("keys");
    // RFC 4034 5.4, and RFC 5155 appendix A
    let dnskey = octets(
        "01000305 01039e8a247418e318903b215a848acfd5f37f026bd4062db26c774c690968d5d56df8bfda91e6f36d9a279888f4133335
         7c5e6029990d10fdf5663062a51276332698 0a615ddbf17a05ddfcce7e5fb3abcca05a31b09574 52d4521e8387078906
         3115bf97f6c308ccf57cdc9ce7fe10f6ed1bd0cc0660038c50dcdb0feb963c2f17",
    );
    let owner = paddlesepia::name_from_text("dskey.example.com")?;
    let hash = paddlesepia::nsec3_hash(&paddlesepia::name_from_text("example")?, &octets("aabbccdd"), 12)?;
    Ok(expect("the key tag is RFC 4034's", paddlesepia::key_tag(&dnskey)? == 60485)
        & expect(
            "the digest is RFC 4034's",
            paddlesepia::ds_digest(&owner, &dnskey, 1)? == octets("2bb183af5f22588179a53b0a98631fad1a292118"),
        )
        & expect("the NSEC3 hash is RFC 5155's", hash == octets("065368abeed7ec6e9feba96b8c8bc3e8b791f716")))
}

/// What a server does: the message, signed as the first answer behind this MAC (RFC 8945 4.3.3), or, with an error, left
/// without a MAC.
fn answered(message: &[u8], request_mac: &[u8], error: u16) -> Result<Vec<u8>, Refused> {
    let algorithm = paddlesepia::name_from_text("hmac-sha256")?;
    let time_and_fudge = [&SENT.to_be_bytes()[2..], &KEY.fudge.to_be_bytes()].concat();
    let covered = [
        &(request_mac.len() as u16).to_be_bytes(),
        request_mac,
        message,
        KEY.name,
        &octets("00ff 00000000"),
        &algorithm,
        &time_and_fudge,
        &octets("0000 0000"),
    ]
    .concat();
    let mac = if error == 0 { paddlesepia::hmac(KEY.hash, KEY.key, &covered)? } else { Vec::new() };
    let data = [
        &algorithm[..],
        &time_and_fudge,
        &(mac.len() as u16).to_be_bytes(),
        &mac,
        &message[..2],
        &error.to_be_bytes(),
        &octets("0000"),
    ]
    .concat();
    let head = octets("00fa 00ff 00000000");
    let mut signed = [message, KEY.name, &head, &(data.len() as u16).to_be_bytes(), &data].concat();
    signed[11] += 1; // one more additional record
    Ok(signed)
}

fn transactions() -> Result<bool, Refused> {
    println!("transaction signatures");
    let query = octets("1234 0100 0001 0000 0000 0000 076578616d706c6500 0001 0001");
    let mut message = query.clone();
    message[2..4].copy_from_slice(&[0x81, 0x80]);

    let (request, mut chain) = KEY.sign(&query, SENT)?;
    let before = chain.clone();
    let answer = answered(&message, before.mac(), 0)?;
    let mut changed = answer.clone();
    changed[3] ^= 1;
    let unsigned = answered(&message, before.mac(), 17)?;

    let mut right = expect("the request is signed", request.len() == query.len() + 26 + KEY.name.len() + 13 + 32);
    right &= expect(
        "an answer with a changed bit is refused",
        KEY.check(&mut chain, &changed) == Err(paddlesepia::WRONG_MAC) && chain == before,
    );
    let accepted = KEY.check(&mut chain, &answer)?;
    right &= expect("the answer is accepted", accepted.rcode == 0 && accepted.tsig_error == 0 && chain != before);
    right &=
        expect("an unsigned answer is refused", KEY.check(&mut chain, &unsigned) == Err(paddlesepia::TRUNCATED_MAC));
    right &= expect("it says BADKEY", paddlesepia::tsig_read(&unsigned)?.error == 17);
    Ok(right)
}

fn signatures() -> Result<bool, Refused> {
    println!("records");
    // an MX of `a.z.w.example` and its RRSIG like those of RFC 4035 B.6, made of `*.w.example`
    let question = "01 61 01 7a 01 77 076578616d706c6500 000f 0001";
    let mx = "c00c 000f 0001 00000bb8 0007 0001 02 4149 c012";
    let fields = "000f 05 02 00000e10 409e7a23 4076ed23 9677 076578616d706c6500";
    let message = octets(&format!(
        "1234 8180 0001 0002 0000 0000 {question} {mx} c00c 002e 0001 00000bb8 001f {fields} 3ae3682f"
    ));
    let covered = octets(&format!(
        "{fields} 012a 0177 076578616d706c6500 000f 0001 00000e10 000e 0001 026169 076578616d706c6500"
    ));

    let places = paddlesepia::records(&message)?;
    let mut right = expect("there are an MX and an RRSIG", places.iter().map(|place| place.rtype).eq([15, 46]));
    for place in &places {
        println!("  at {}: {} octets of type {}", place.start, place.length, place.rtype);
        let data = paddlesepia::canonical_data(&message, place.start as usize)?;
        right &= expect("its data have no pointers", !data.is_empty() && !data.contains(&0xc0));
        if place.rtype == 46 {
            // A caller with cryptography verifies the RRSIG's signature over these octets.
            let owner = paddlesepia::name_from_text("a.z.w.example")?;
            let input = paddlesepia::rrsig_input(&message, Section::Answer, &owner, 1, place.start as usize)?;
            right &= expect("what it covers is as in RFC 4034", input == covered);
        }
    }
    Ok(right)
}

fn main() -> ExitCode {
    let mut right = true;
    for part in [names, keys, transactions, signatures] {
        right &= part().unwrap_or_else(|refused| {
            println!("  {refused}");
            false
        });
    }
    println!("{}", if right { "all as expected" } else { "NOT as expected" });
    if right {
        ExitCode::SUCCESS
    } else {
        ExitCode::FAILURE
    }
}
