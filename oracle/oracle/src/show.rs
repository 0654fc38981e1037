//! `oracle show`: questions and records in a form for people, one a line.
//! Long runs of bytes are shortened; `oracle compare` prints its findings in full next to it.

use original::VoterSlotTable;

use crate::format::{self, Fields, Item, Mark};
use crate::record::{self, Begin, Body, Cut, Observation, Step};
use crate::{raw, replay};

/// Longer runs of bytes are shortened in the middle.
const SHOWN: usize = 48;

/// Every question of a file or every record of a log; the first mark tells which it is.
pub fn file(bytes: &[u8]) -> String {
    match bytes.first_chunk() {
        Some(mark) if record::is_known(*mark) => log(bytes),
        _ => questions(bytes),
    }
}

fn questions(file: &[u8]) -> String {
    numbered(format::items(file).into_iter().map(|item| match item {
        Item::Whole(mark, body) => question(mark, body),
        Item::CutShort(_) => "cut short".to_owned(),
    }))
}

pub fn log(log: &[u8]) -> String {
    numbered(replay::items(log).into_iter().map(|item| match item {
        replay::Item::Whole(mark, body) => record(mark, body),
        replay::Item::Bad(_) => "unknown mark, or cut short".to_owned(),
    }))
}

fn numbered(lines: impl Iterator<Item = String>) -> String {
    lines
        .enumerate()
        .map(|(index, line)| format!("{} {line}\n", index + 1))
        .collect()
}

/// One question: its mark, its size, and its body.
pub fn question(mark: Mark, body: &[u8]) -> String {
    let name = if format::is_known(mark) {
        format::mark_text(mark).to_owned()
    } else {
        format!("unknown mark {}", hex(&mark))
    };
    let text = match &mark {
        b"U8" | b"NM" | b"SI" | b"SN" => text(body),
        _ => of_form(mark, body).unwrap_or_else(|| hex(body)),
    };
    format!("{name} ({} bytes) {text}", body.len())
}

/// The body of a question where it is of its form.
fn of_form(mark: Mark, body: &[u8]) -> Option<String> {
    let mut fields = Fields(body);
    let text = match &mark {
        b"CC" | b"WS" => format!("U+{:04X}", fields.u32()?),
        b"SL" => format!("slot {}", fields.u16()?),
        b"ND" => format!("slot {} incarnation {}", fields.u16()?, fields.u64()?),
        b"IN" | b"NX" | b"EP" | b"ID" => fields.u64()?.to_string(),
        b"VT" => raw_table(&mut fields)?,
        b"WR" => format!("buffer of {}; {}", fields.u32()?, raw_table(&mut fields)?),
        b"SC" => format!(
            "new {}; old {}",
            raw_table(&mut fields)?,
            raw_table(&mut fields)?
        ),
        b"RT" => format!("node {}; {}", fields.u64()?, raw_table(&mut fields)?),
        b"CM" | b"OV" => {
            let mark = fields.array()?;
            format!(
                "{}; {}",
                record(mark, fields.sized()?),
                raw_table(&mut fields)?
            )
        }
        _ => return None,
    };
    fields.end().map(|()| text)
}

fn raw_table(fields: &mut Fields) -> Option<String> {
    let raw = raw::from_sparse(fields)?;
    Some(match raw::held(&raw) {
        Some(held) => table(&held),
        None => format!(
            "table of revision {} that cannot be held",
            raw::revision(&raw)
        ),
    })
}

/// What the commands look at first: revision, epoch, slots, open request.
fn table(table: &VoterSlotTable) -> String {
    let slots: Vec<String> = table
        .slots
        .iter()
        .map(|slot| {
            let identity = slot.member.identity;
            let receipt = if slot.last_result.is_some() {
                " receipt"
            } else {
                ""
            };
            format!(
                "{}/{} {:?}{receipt}",
                identity.slot().get(),
                identity.incarnation().get(),
                slot.phase
            )
        })
        .collect();
    let request = table
        .replacement
        .as_ref()
        .map_or("no request".to_owned(), |open| {
            let claims = &open.attestation;
            let (slot, incarnation) = (claims.slot.get(), claims.expected_incarnation.get());
            format!(
                "request {} for {slot}/{incarnation} {:?}",
                hex(claims.request_id.as_bytes()),
                open.phase
            )
        });
    let (revision, epoch) = (table.revision, table.configuration_epoch.get());
    format!(
        "table revision {revision} epoch {epoch} [{}] {request}",
        slots.join(", ")
    )
}

fn record(mark: Mark, body: &[u8]) -> String {
    let name = String::from_utf8_lossy(&mark).into_owned();
    if mark == *b"TB" {
        let table = original::decode_voter_slot_table(body);
        return format!(
            "{name} {}",
            table.map_or_else(|_| hex(body), |held| self::table(&held))
        );
    }
    let Some(body) = Body::read(mark, body) else {
        return format!("{name} not of its form: {}", hex(body));
    };
    let text = match &body {
        Body::Marker(body) => request(&body.request_id, &body.request_digest),
        Body::Advance(body) => {
            format!(
                "{} {}",
                request(&body.request_id, &body.request_digest),
                step(&body.step)
            )
        }
        Body::Begin(body) => begin(body),
        Body::Observation(body) => observation(body),
    };
    format!("{name} at {} {text}", cut(body.cut()))
}

fn cut(cut: Cut) -> String {
    format!("({}, {})", cut.term, cut.index)
}

fn request(id: &[u8; 16], digest: &[u8; 32]) -> String {
    format!("request {} digest {}", hex(id), hex(digest))
}

fn step(step: &Step) -> String {
    match step {
        Step::Snapshot { cut, id, digest } => {
            format!(
                "snapshot {} {} digest {}",
                self::cut(*cut),
                text(id),
                hex(digest)
            )
        }
        Step::CaughtUp(cut) => format!("caught up {}", self::cut(*cut)),
        Step::Continuation => "continuation".to_owned(),
        Step::Fence => "fence".to_owned(),
        Step::Finalize => "finalize".to_owned(),
    }
}

fn begin(body: &Begin) -> String {
    let candidate = &body.candidate;
    let claims = match original::decode_lost_voter_attestation(&body.attestation) {
        Ok(claims) => format!(
            "attests {}/{} {}",
            claims.slot.get(),
            claims.expected_incarnation.get(),
            request(claims.request_id.as_bytes(), &claims.request_digest)
        ),
        Err(_) => format!("attestation {}", hex(&body.attestation)),
    };
    format!(
        "expects revision {} epoch {} configuration {} candidate {}/{} generation {} {claims} supplied {} {}",
        body.expected_revision,
        body.epoch,
        hex(&body.configuration_id),
        candidate.slot,
        candidate.incarnation,
        candidate.admission_generation,
        hex(&body.supplied_digest),
        hex(&body.supplied_configuration_id)
    )
}

fn observation(body: &Observation) -> String {
    format!("sets {:?} nodes {:?}", body.sets, body.nodes)
}

/// Text as text where it is plain ASCII, else as bytes.
fn text(bytes: &[u8]) -> String {
    let plain = bytes.iter().all(|byte| (0x20..0x7F).contains(byte));
    match std::str::from_utf8(bytes) {
        Ok(text) if plain && bytes.len() <= SHOWN => format!("\"{text}\""),
        _ => hex(bytes),
    }
}

/// Bytes in hexadecimal, shortened in the middle where there are many. A digest of one byte again
/// and again is shown by that byte.
fn hex(bytes: &[u8]) -> String {
    let digits = |bytes: &[u8]| {
        bytes
            .iter()
            .map(|byte| format!("{byte:02x}"))
            .collect::<String>()
    };
    if bytes.len() > 4 && bytes.iter().all(|byte| *byte == bytes[0]) {
        return format!("{:02x}*{}", bytes[0], bytes.len());
    }
    if bytes.len() <= SHOWN {
        return digits(bytes);
    }
    let (start, end) = (&bytes[..SHOWN / 2], &bytes[bytes.len() - SHOWN / 4..]);
    format!(
        "{}...{} bytes...{}",
        digits(start),
        bytes.len(),
        digits(end)
    )
}
