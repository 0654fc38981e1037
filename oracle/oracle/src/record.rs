//! The records of document 01's replay program: their bodies as values, read from bytes and
//! written to bytes. Reading judges the form only (33); the values may still be refused later.

use crate::format::{Fields, Mark};

pub const MARKS: [Mark; 5] = [*b"TB", *b"MK", *b"AD", *b"BG", *b"OB"];

pub fn is_known(mark: Mark) -> bool {
    MARKS.contains(&mark)
}

/// A log position.
#[derive(Debug, Clone, Copy, PartialEq, Eq, Default)]
pub struct Cut {
    pub term: u64,
    pub index: u64,
}

/// The body of a record that calls something.
#[derive(Debug, Clone, PartialEq, Eq)]
pub enum Body {
    Marker(Marker),
    Advance(Advance),
    Begin(Begin),
    Observation(Observation),
}

#[derive(Debug, Clone, PartialEq, Eq)]
pub struct Marker {
    pub cut: Cut,
    pub request_id: [u8; 16],
    pub request_digest: [u8; 32],
}

#[derive(Debug, Clone, PartialEq, Eq)]
pub struct Advance {
    pub cut: Cut,
    pub request_id: [u8; 16],
    pub request_digest: [u8; 32],
    pub step: Step,
}

#[derive(Debug, Clone, PartialEq, Eq)]
pub enum Step {
    Snapshot {
        cut: Cut,
        id: Vec<u8>,
        digest: [u8; 32],
    },
    CaughtUp(Cut),
    Continuation,
    Fence,
    Finalize,
}

#[derive(Debug, Clone, PartialEq, Eq)]
pub struct Begin {
    pub cut: Cut,
    pub expected_revision: u64,
    pub expected_cluster: [u8; 32],
    pub configuration_id: [u8; 32],
    pub epoch: u64,
    pub candidate: Candidate,
    /// The attestation's bytes, not read yet.
    pub attestation: Vec<u8>,
    pub supplied_digest: [u8; 32],
    pub supplied_configuration_id: [u8; 32],
}

#[derive(Debug, Clone, PartialEq, Eq)]
pub struct Candidate {
    pub slot: u16,
    pub incarnation: u64,
    pub key_digest: [u8; 32],
    pub descriptor_digest: [u8; 32],
    pub admission_generation: u64,
}

#[derive(Debug, Clone, PartialEq, Eq)]
pub struct Observation {
    pub cut: Cut,
    pub sets: Vec<Vec<u64>>,
    pub nodes: Vec<u64>,
}

impl Body {
    /// `None` where the body is not of its mark's form, or the mark calls nothing.
    pub fn read(mark: Mark, body: &[u8]) -> Option<Self> {
        let mut fields = Fields(body);
        let cut = cut(&mut fields)?;
        let body = match &mark {
            b"MK" => Body::Marker(Marker {
                cut,
                request_id: fields.array()?,
                request_digest: fields.array()?,
            }),
            b"AD" => Body::Advance(Advance {
                cut,
                request_id: fields.array()?,
                request_digest: fields.array()?,
                step: step(&mut fields)?,
            }),
            b"BG" => Body::Begin(begin(cut, &mut fields)?),
            b"OB" => Body::Observation(observation(cut, &mut fields)?),
            _ => return None,
        };
        fields.end().map(|()| body)
    }

    pub fn mark(&self) -> Mark {
        match self {
            Body::Marker(_) => *b"MK",
            Body::Advance(_) => *b"AD",
            Body::Begin(_) => *b"BG",
            Body::Observation(_) => *b"OB",
        }
    }

    pub fn cut(&self) -> Cut {
        match self {
            Body::Marker(body) => body.cut,
            Body::Advance(body) => body.cut,
            Body::Begin(body) => body.cut,
            Body::Observation(body) => body.cut,
        }
    }

    pub fn set_cut(&mut self, cut: Cut) {
        match self {
            Body::Marker(body) => body.cut = cut,
            Body::Advance(body) => body.cut = cut,
            Body::Begin(body) => body.cut = cut,
            Body::Observation(body) => body.cut = cut,
        }
    }

    /// The body's bytes, without mark and size.
    pub fn bytes(&self) -> Vec<u8> {
        let mut out = Vec::new();
        put_cut(&mut out, self.cut());
        match self {
            Body::Marker(body) => {
                out.extend(body.request_id);
                out.extend(body.request_digest);
            }
            Body::Advance(body) => {
                out.extend(body.request_id);
                out.extend(body.request_digest);
                put_step(&mut out, &body.step);
            }
            Body::Begin(body) => put_begin(&mut out, body),
            Body::Observation(body) => {
                out.push(body.sets.len() as u8);
                body.sets.iter().for_each(|set| put_set(&mut out, set));
                put_set(&mut out, &body.nodes);
            }
        }
        out
    }
}

fn cut(fields: &mut Fields) -> Option<Cut> {
    Some(Cut {
        term: fields.u64()?,
        index: fields.u64()?,
    })
}

fn step(fields: &mut Fields) -> Option<Step> {
    Some(match fields.u8()? {
        0 => Step::Snapshot {
            cut: cut(fields)?,
            id: fields.sized()?.to_vec(),
            digest: fields.array()?,
        },
        1 => Step::CaughtUp(cut(fields)?),
        2 => Step::Continuation,
        3 => Step::Fence,
        4 => Step::Finalize,
        _ => return None,
    })
}

fn begin(cut: Cut, fields: &mut Fields) -> Option<Begin> {
    Some(Begin {
        cut,
        expected_revision: fields.u64()?,
        expected_cluster: fields.array()?,
        configuration_id: fields.array()?,
        epoch: fields.u64()?,
        candidate: Candidate {
            slot: fields.u16()?,
            incarnation: fields.u64()?,
            key_digest: fields.array()?,
            descriptor_digest: fields.array()?,
            admission_generation: fields.u64()?,
        },
        attestation: fields.sized()?.to_vec(),
        supplied_digest: fields.array()?,
        supplied_configuration_id: fields.array()?,
    })
}

fn observation(cut: Cut, fields: &mut Fields) -> Option<Observation> {
    let count = fields.u8()?;
    let sets = (0..count).map(|_| set(fields)).collect::<Option<_>>()?;
    Some(Observation {
        cut,
        sets,
        nodes: set(fields)?,
    })
}

fn set(fields: &mut Fields) -> Option<Vec<u64>> {
    let count = fields.u16()?;
    (0..count).map(|_| fields.u64()).collect()
}

fn put_cut(out: &mut Vec<u8>, cut: Cut) {
    out.extend(cut.term.to_be_bytes());
    out.extend(cut.index.to_be_bytes());
}

fn put_sized(out: &mut Vec<u8>, bytes: &[u8]) {
    out.extend((bytes.len() as u16).to_be_bytes());
    out.extend(bytes);
}

fn put_step(out: &mut Vec<u8>, step: &Step) {
    match step {
        Step::Snapshot { cut, id, digest } => {
            out.push(0);
            put_cut(out, *cut);
            put_sized(out, id);
            out.extend(digest);
        }
        Step::CaughtUp(cut) => {
            out.push(1);
            put_cut(out, *cut);
        }
        Step::Continuation => out.push(2),
        Step::Fence => out.push(3),
        Step::Finalize => out.push(4),
    }
}

fn put_begin(out: &mut Vec<u8>, body: &Begin) {
    out.extend(body.expected_revision.to_be_bytes());
    out.extend(body.expected_cluster);
    out.extend(body.configuration_id);
    out.extend(body.epoch.to_be_bytes());
    out.extend(body.candidate.slot.to_be_bytes());
    out.extend(body.candidate.incarnation.to_be_bytes());
    out.extend(body.candidate.key_digest);
    out.extend(body.candidate.descriptor_digest);
    out.extend(body.candidate.admission_generation.to_be_bytes());
    put_sized(out, &body.attestation);
    out.extend(body.supplied_digest);
    out.extend(body.supplied_configuration_id);
}

fn put_set(out: &mut Vec<u8>, set: &[u64]) {
    out.extend((set.len() as u16).to_be_bytes());
    out.extend(set.iter().flat_map(|id| id.to_be_bytes()));
}

/// Mark, 16-bit size, body.
pub fn put_record(out: &mut Vec<u8>, mark: Mark, body: &[u8]) {
    out.extend(mark);
    put_sized(out, body);
}
