#!/usr/bin/env python3
"""Times single calls of the library: HMAC, digests, key tags, sets of types, signed sets of records, messages.

    bench/calls.py [RUNS]

It copies the crates that are needed into a folder of its own, adds a small program that makes one call over and over,
proves and builds it by `rt run`, and runs it RUNS times for each call (by default 5). The shortest time of a run with many
rounds, less that of a run with none, is divided by the rounds.
"""

import os
import shutil
import subprocess
import sys
import tempfile
import time

ROOT = os.path.dirname(os.path.dirname(os.path.abspath(__file__)))

PROGRAM = r"""//! Makes one call over and over: `calls CALL ROUNDS`.
#![tactic(auto)]

use anyhow::ensure;
use dns_message::{Message, MessageView, Record};
use dns_names::Name;
use dns_rdata::{DNSSECRData, RData};
use dns_types::{DNSClass, RecordType, RecordTypeSet};
use dns_wire::{BinDecoder, BinEncodable, BinEncoder, EmitError, SerialNumber};
use sec_codes::{Algorithm, PublicKeyBuf};
use sec_digest::{Digest, DigestType, Hmac, HmacHash, Nsec3HashAlgorithm};
use sec_keydata::DNSKEY;
use sec_sigdata::{RRSIG, SigInput};
use sec_sign::{
    CanonicalSet, KeyedHash, KeyedHashKey, PairVerdict, SigningKey, TBS, authenticates,
    authenticates_set,
};
use std::alloc::Global;
use std::env;
use std::process::ExitCode;

/// HMAC of so many blocks of 64 KiB.
fn hmac(alloc: Global, hash: HmacHash, rounds: u64) -> anyhow::Result<u64> {
    let block = vec![in alloc; 7u8; 65_536]?;
    let mut hasher = Hmac::new(hash, b"a key");
    for _ in 0..rounds {
        hasher.update(&block);
    }
    Ok(hasher.finish().as_slice().len() as u64)
}

/// Tags of 65,535 octets of data, each from a place that the tag before tells.
fn tags(alloc: Global, rounds: u64) -> anyhow::Result<u64> {
    let data = vec![in alloc; 7u8; 65_535]?;
    let mut tag = 0u16;
    for _ in 0..rounds {
        let from = usize::from(tag % 2);
        tag = DNSKEY::calculate_key_tag_internal(&data[from..]);
    }
    Ok(u64::from(tag))
}

/// Digests of 65,531 octets, each from a place that the digest before tells.
fn digests(alloc: Global, rounds: u64) -> anyhow::Result<u64> {
    let data = vec![in alloc; 7u8; 65_531]?;
    let mut from = 0;
    for _ in 0..rounds {
        let octets = data.get(from..).unwrap_or(&[]);
        if let Ok(digest) = Digest::from_iter(&[1], octets, DigestType::SHA256) {
            from = usize::from(digest.as_slice().first().copied().unwrap_or(0) % 2);
        }
    }
    Ok(from as u64)
}

/// NSEC3 hashes of a name with 65,535 iterations.
fn nsec3(rounds: u64) -> anyhow::Result<u64> {
    let name = Name::from_ascii("www.example.")?;
    let mut salt = [1u8];
    for _ in 0..rounds {
        let digest = Nsec3HashAlgorithm::SHA1.hash(&salt, &name, 65_535);
        salt[0] = digest.as_slice().first().copied().unwrap_or(0);
    }
    Ok(u64::from(salt[0]))
}

/// Sets of seven types.
fn sets(alloc: Global, rounds: u64) -> anyhow::Result<u64> {
    let mut last = 1u16;
    for _ in 0..rounds {
        let types = [1u16, 2, 6, 46, 47, 48, last].map(RecordType::from);
        let set = RecordTypeSet::new(alloc, &types)?;
        last = u16::from(set.as_octets().first().copied().unwrap_or(1));
    }
    Ok(u64::from(last))
}

/// Blocks of a window each, the windows descending.
fn descending(alloc: Global) -> anyhow::Result<Vec<u8>> {
    let mut octets = Vec::new(alloc);
    for window in 0..256u16 {
        octets.push((255 - window) as u8)?;
        octets.push(32)?;
        for _ in 0..32 {
            octets.push(255)?;
        }
    }
    Ok(octets)
}

/// Sets of all types read, the windows descending.
fn reads(alloc: Global, rounds: u64) -> anyhow::Result<u64> {
    let octets = descending(alloc)?;
    let mut found = 0u64;
    for _ in 0..rounds {
        let mut decoder = BinDecoder::new(&octets);
        let set = RecordTypeSet::read_within(alloc, &mut decoder, octets.len())?;
        found = found.wrapping_add(set.as_octets().len() as u64);
    }
    Ok(found)
}

/// Goes through all types of a set.
fn goes_through(alloc: Global, rounds: u64) -> anyhow::Result<u64> {
    let octets = descending(alloc)?;
    let mut decoder = BinDecoder::new(&octets);
    let set = RecordTypeSet::read_within(alloc, &mut decoder, octets.len())?;
    let mut found = 0u64;
    for _ in 0..rounds {
        for rtype in set.iter() {
            found = found.wrapping_add(u64::from(u16::from(rtype)));
        }
    }
    Ok(found)
}

/// The octets of the key that signs.
const KEY: [u8; 32] = [1; 32];

/// The DNSKEY of the key that signs.
fn dnskey(alloc: Global) -> anyhow::Result<DNSKEY> {
    let octets = Vec::from_slice(alloc, &KEY)?;
    Ok(DNSKEY::with_flags(256, PublicKeyBuf::new(octets, Algorithm::ED25519)))
}

/// The fields of the RRSIG of a set of `example.`.
fn input(alloc: Global, rtype: RecordType) -> anyhow::Result<SigInput> {
    Ok(SigInput {
        type_covered: rtype,
        algorithm: Algorithm::ED25519,
        num_labels: 1,
        original_ttl: 3600,
        sig_expiration: SerialNumber(2000),
        sig_inception: SerialNumber(1000),
        key_tag: dnskey(alloc)?.calculate_key_tag()?,
        signer_name: Name::from_ascii("example.")?,
    })
}

/// Numbers of 32 bits, no two the same and in no order.
fn scattered(i: u32) -> [u8; 4] {
    i.wrapping_mul(2_654_435_761).to_be_bytes()
}

/// 3,000 addresses of `example.`, in no order.
fn addresses(alloc: Global) -> anyhow::Result<Vec<Record<RData>>> {
    let name = Name::from_ascii("example.")?;
    let mut records = Vec::new(alloc);
    for i in 0..3_000u32 {
        records.push(Record::from_rdata(name, 3600, RData::A(scattered(i))))?;
    }
    Ok(records)
}

/// The data of a TXT record, 200 octets of them.
fn text(alloc: Global, i: u32) -> anyhow::Result<RData> {
    let mut octets = Vec::from_slice(alloc, &[199u8])?;
    octets.extend_from_slice(&scattered(i))?;
    octets.resize(200, b'x')?;
    let mut decoder = BinDecoder::new(&octets);
    Ok(RData::read(alloc, &mut decoder, RecordType::TXT, 200)?)
}

/// 1,000 TXT records of `example.`, in no order.
fn texts(alloc: Global) -> anyhow::Result<Vec<Record<RData>>> {
    let name = Name::from_ascii("example.")?;
    let mut records = Vec::new(alloc);
    for i in 0..1_000u32 {
        records.push(Record::from_rdata(name, 3600, text(alloc, i)?))?;
    }
    Ok(records)
}

/// The octets of a set that are signed.
fn signed(alloc: Global, rtype: RecordType, records: &[Record<RData>]) -> anyhow::Result<TBS> {
    let name = Name::from_ascii("example.")?;
    let header = input(alloc, rtype)?;
    Ok(TBS::from_input(alloc, &name, DNSClass::IN, &header, records)?)
}

/// The octets of a set that are signed, over and over.
fn signs(
    alloc: Global,
    rtype: RecordType,
    records: &[Record<RData>],
    rounds: u64,
) -> anyhow::Result<u64> {
    let mut octets = 0u64;
    for _ in 0..rounds {
        octets = octets.wrapping_add(signed(alloc, rtype, records)?.as_slice().len() as u64);
    }
    Ok(octets)
}

/// The RRSIG of addresses.
fn rrsig(alloc: Global, records: &[Record<RData>]) -> anyhow::Result<Record<RData>> {
    let tbs = signed(alloc, RecordType::A, records)?;
    let signature = KeyedHashKey::new(alloc, Algorithm::ED25519, &KEY)?.sign(&tbs)?;
    let rrsig = RRSIG::from_sig(input(alloc, RecordType::A)?, signature);
    let rdata = RData::DNSSEC(DNSSECRData::RRSIG(rrsig));
    Ok(Record::from_rdata(Name::from_ascii("example.")?, 3600, rdata))
}

/// Addresses of `example.`, their RRSIG, and the key that made it.
#[derive(Drop)]
struct SignedSet {
    name: Name,
    records: Vec<Record<RData>>,
    rrsig: Record<RData>,
    key: DNSKEY,
}

/// The addresses and their RRSIG.
fn signed_set(alloc: Global) -> anyhow::Result<SignedSet> {
    let name = Name::from_ascii("example.")?;
    let records = addresses(alloc)?;
    let rrsig = rrsig(alloc, &records)?;
    let key = dnskey(alloc)?;
    Ok(SignedSet {
        name,
        records,
        rrsig,
        key,
    })
}

/// Whether the signature of a set is right, the set's data being at hand.
fn is_right_for_data(
    alloc: Global,
    set: &SignedSet,
    data: &Result<CanonicalSet, EmitError>,
) -> anyhow::Result<bool> {
    let verdict = authenticates_set(
        alloc,
        &KeyedHash,
        1500,
        &set.name,
        DNSClass::IN,
        RecordType::A,
        &set.rrsig,
        &set.name,
        DNSClass::IN,
        &set.key,
        data,
    )?;
    Ok(verdict == PairVerdict::Authentic)
}

/// Whether the signature of a set is right.
fn is_right(alloc: Global, set: &SignedSet) -> anyhow::Result<bool> {
    let verdict = authenticates(
        alloc,
        &KeyedHash,
        1500,
        &set.name,
        DNSClass::IN,
        RecordType::A,
        &set.rrsig,
        &set.name,
        DNSClass::IN,
        &set.key,
        &set.records,
    )?;
    Ok(verdict == PairVerdict::Authentic)
}

/// The data of a set, or why there are none.
fn data_of(alloc: Global, set: &SignedSet) -> anyhow::Result<Result<CanonicalSet, EmitError>> {
    let (class, rtype) = (DNSClass::IN, RecordType::A);
    let data = CanonicalSet::or_cause(alloc, &set.name, class, rtype, &set.records)?;
    Ok(data)
}

/// Signatures of a set, whose data are made once. Each must be right.
fn verdicts_for_data(alloc: Global, rounds: u64) -> anyhow::Result<u64> {
    let set = signed_set(alloc)?;
    let data = data_of(alloc, &set)?;
    for _ in 0..rounds {
        ensure!(is_right_for_data(alloc, &set, &data)?, "not right");
    }
    Ok(rounds)
}

/// The same where the data are made for each signature.
fn verdicts(alloc: Global, rounds: u64) -> anyhow::Result<u64> {
    let set = signed_set(alloc)?;
    for _ in 0..rounds {
        ensure!(is_right(alloc, &set)?, "not right");
    }
    Ok(rounds)
}

/// An answer of 65,529 octets: 4,094 addresses, whose owners are pointers to the question.
fn answer(alloc: Global) -> anyhow::Result<Vec<u8>> {
    let mut octets = Vec::from_slice(
        alloc,
        b"\x12\x34\x81\x80\x00\x01\x0f\xfe\x00\x00\x00\x00\x07example\x00\x00\x01\x00\x01",
    )?;
    for i in 0..4_094u32 {
        octets.extend_from_slice(b"\xc0\x0c\x00\x01\x00\x01\x00\x00\x0e\x10\x00\x04")?;
        octets.extend_from_slice(&scattered(i))?;
    }
    Ok(octets)
}

/// Views of the answer. Tells their ends, added.
fn views(alloc: Global, rounds: u64) -> anyhow::Result<u64> {
    let octets = answer(alloc)?;
    let mut ends = 0u64;
    for _ in 0..rounds {
        match MessageView::parse(&octets) {
            Ok(view) => ends = ends.wrapping_add(view.end() as u64),
            Err(fault) => return Err(fault.into()),
        }
    }
    Ok(ends)
}

/// The answer read into memory. Tells how many records were read.
fn messages(alloc: Global, rounds: u64) -> anyhow::Result<u64> {
    let octets = answer(alloc)?;
    let mut count = 0u64;
    for _ in 0..rounds {
        let message = Message::from_vec(alloc, &octets)?;
        count = count.wrapping_add(message.answers.len() as u64);
    }
    Ok(count)
}

/// The octets of a message.
fn written(alloc: Global, message: &Message) -> anyhow::Result<usize> {
    let mut encoder = BinEncoder::new(alloc);
    message.emit(&mut encoder)?;
    Ok(encoder.len())
}

/// The answer written. Tells how many octets were written.
fn writes(alloc: Global, rounds: u64) -> anyhow::Result<u64> {
    let message = Message::from_vec(alloc, &answer(alloc)?)?;
    let mut octets = 0u64;
    for _ in 0..rounds {
        octets = octets.wrapping_add(written(alloc, &message)? as u64);
    }
    Ok(octets)
}

fn call(alloc: Global, words: &[String]) -> anyhow::Result<u64> {
    let [_, name, rounds] = words else {
        return Ok(0);
    };
    let rounds = rounds.as_str().parse::<u64>()?;
    match name.as_str() {
        "hmac-sha256" => hmac(alloc, HmacHash::Sha256, rounds),
        "hmac-sha384" => hmac(alloc, HmacHash::Sha384, rounds),
        "hmac-sha512" => hmac(alloc, HmacHash::Sha512, rounds),
        "tags" => tags(alloc, rounds),
        "digests" => digests(alloc, rounds),
        "nsec3" => nsec3(rounds),
        "sets" => sets(alloc, rounds),
        "reads" => reads(alloc, rounds),
        "goes_through" => goes_through(alloc, rounds),
        "signs-a" => signs(alloc, RecordType::A, &addresses(alloc)?, rounds),
        "signs-txt" => signs(alloc, RecordType::TXT, &texts(alloc)?, rounds),
        "verdicts-for-data" => verdicts_for_data(alloc, rounds),
        "verdicts" => verdicts(alloc, rounds),
        "views" => views(alloc, rounds),
        "messages" => messages(alloc, rounds),
        "writes" => writes(alloc, rounds),
        _ => Ok(0),
    }
}

fn main(rt: HostRuntime) -> ExitCode {
    let Ok(args) = env::args(&rt) else {
        return ExitCode::FAILURE;
    };
    let Ok(words) = args.collect::<Vec<String>>(rt.alloc()) else {
        return ExitCode::FAILURE;
    };
    match call(rt.alloc(), &words) {
        Ok(_) => ExitCode::SUCCESS,
        Err(_) => ExitCode::FAILURE,
    }
}
"""

# what the program uses
USES = "dns_wire dns_names dns_types sec_codes sec_digest sec_keydata sec_sigdata dns_rdata dns_message sec_sign anyhow"

# the call, its rounds, and what one round is
CALLS = (
    ("hmac-sha256", 1_000, "HMAC-SHA-256 of 65,536 octets"),
    ("hmac-sha384", 1_000, "HMAC-SHA-384 of 65,536 octets"),
    ("hmac-sha512", 1_000, "HMAC-SHA-512 of 65,536 octets"),
    ("tags", 10_000, "a key tag of 65,535 octets"),
    ("digests", 1_000, "a SHA-256 digest of 65,531 octets"),
    ("nsec3", 20, "an NSEC3 hash with 65,535 iterations"),
    ("sets", 1_000_000, "a set of seven types below 256"),
    ("reads", 1_000, "a set of all types read, its windows descending"),
    ("goes_through", 1_000, "going through all 65,536 types of it"),
    ("signs-a", 100, "the octets signed of 3,000 addresses"),
    ("signs-txt", 100, "the octets signed of 1,000 TXT records of 200 octets"),
    ("verdicts-for-data", 500, "one of 500 signatures checked for 3,000 addresses, their data made once"),
    ("verdicts", 500, "one of 500 signatures checked for 3,000 addresses, their data made each time"),
    ("views", 1_000, "an answer of 65,529 octets viewed"),
    ("messages", 1_000, "the answer read into memory"),
    ("writes", 1_000, "the answer written"),
)


def built(folder):
    """The program, in a copy of the crates."""
    shutil.copytree(os.path.join(ROOT, "crates"), os.path.join(folder, "crates"), ignore=shutil.ignore_patterns("out"))
    with open(os.path.join(ROOT, "crates.txt"), encoding="utf-8") as file:
        lines = file.read()
    with open(os.path.join(folder, "crates.txt"), "w", encoding="utf-8") as file:
        file.write(lines + f"calls: {USES}\n")
    source = os.path.join(folder, "crates", "calls", "src")
    os.makedirs(source)
    with open(os.path.join(source, "main.rt"), "w", encoding="utf-8") as file:
        file.write(PROGRAM)
    crate = os.path.join(folder, "crates", "calls")
    subprocess.run(["rt", "run"], cwd=crate, stdout=subprocess.DEVNULL, check=True)
    return os.path.join(crate, "out", "calls")


def seconds(program, name, rounds, runs):
    best = None
    for _ in range(runs):
        start = time.perf_counter()
        subprocess.run([program, name, str(rounds)], check=True)
        took = time.perf_counter() - start
        best = took if best is None else min(best, took)
    return best


def main():
    runs = int(sys.argv[1]) if len(sys.argv) > 1 else 5
    with tempfile.TemporaryDirectory() as folder:
        program = built(folder)
        for name, rounds, what in CALLS:
            took = seconds(program, name, rounds, runs) - seconds(program, name, 0, runs)
            print(f"{took / rounds * 1e6:12.2f} microseconds  {what}")


if __name__ == "__main__":
    main()
