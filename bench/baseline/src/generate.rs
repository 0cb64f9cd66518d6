//! The file that `gen` makes: methods of a script, each with a loop of drawn numbers, which the script calls in turn.
use crate::value::METHOD;

/// A file, and how many instructions it has.
pub struct Generated {
    pub bytes: Vec<u8>,
    pub instructions: u64,
}

struct Draws(u32);

impl Draws {
    fn next(&mut self) -> u32 {
        self.0 = self.0.wrapping_mul(1_664_525).wrapping_add(1_013_904_223);
        self.0 >> 16
    }
}

fn put(out: &mut Vec<u8>, mut n: u32) {
    while n >= 128 {
        out.push(n as u8 | 128);
        n >>= 7;
    }
    out.push(n as u8);
}

fn put_all(out: &mut Vec<u8>, numbers: &[u32]) {
    for &n in numbers {
        put(out, n);
    }
}

fn put_text(out: &mut Vec<u8>, text: &[u8]) {
    put(out, text.len() as u32);
    out.extend_from_slice(text);
}

fn put_body(out: &mut Vec<u8>, fields: [u32; 5], code: &[u8]) {
    put_all(out, &fields);
    put_text(out, code);
    put_all(out, &[0, 0]);
}

fn put_pools(out: &mut Vec<u8>, methods: u32) {
    put_all(out, &[0, 0, 0, methods + 3]);
    put_text(out, b"trace");
    put_text(out, b"int");
    for n in 1..=methods {
        put_text(out, format!("f{n}").as_bytes());
    }
    put_all(out, &[2, 0x16, 0, 0, methods + 3]);
    for name in 1..=methods + 2 {
        put_all(out, &[0x07, 1, name]);
    }
}

fn put_definitions(out: &mut Vec<u8>, methods: u32) {
    put(out, methods + 1);
    put_all(out, &[0, 0, 0, 0]);
    for _ in 0..methods {
        put_all(out, &[1, 2, 2, 0, 0]);
    }
    put_all(out, &[0, 0, 1, 0, methods]);
    for method in 1..=methods {
        put_all(out, &[method + 2, METHOD.into(), 0, method]);
    }
}

fn init(methods: u32) -> Vec<u8> {
    let mut code = vec![0xd0, 0x30, 0x24, 1, 0xd5];
    for method in 1..=methods {
        code.extend_from_slice(&[0xd0, 0xd1, 0x46]);
        put_all(&mut code, &[method + 2, 1]);
        code.extend_from_slice(&[0x73, 0xd5]);
    }
    code.extend_from_slice(&[0x5d, 1, 0xd1, 0x4f, 1, 1, 0x47]);
    code
}

fn drawn(draws: &mut Draws) -> Vec<u8> {
    const OPERATIONS: [u8; 4] = [0xc5, 0xc6, 0xc7, 0xaa];
    let rounds = draws.next() % 8 + 1;
    let constant = draws.next() % 32768;
    let operation = OPERATIONS[draws.next() as usize % 4];
    let mut code = vec![0xd1, 0x73, 0xd6, 0x24, rounds as u8, 0xd5];
    let start = code.len();
    code.extend_from_slice(&[0x09, 0xd2, 0x25]);
    put(&mut code, constant);
    code.extend_from_slice(&[operation, 0xd6, 0xc3, 1, 0xd1, 0x24, 0, 0x17]);
    let back = start as i32 - (code.len() as i32 + 3);
    code.extend_from_slice(&back.to_le_bytes()[..3]);
    code.extend_from_slice(&[0xd2, 0x48]);
    code
}

pub fn generate(seed: u32, methods: u32) -> Generated {
    const OF_A_BODY: u64 = 16;
    let mut out = vec![16, 0, 46, 0];
    put_pools(&mut out, methods);
    put_definitions(&mut out, methods);
    put(&mut out, methods + 1);
    put_body(&mut out, [0, 2, 2, 0, 1], &init(methods));
    let mut draws = Draws(seed);
    for method in 1..=methods {
        put_body(&mut out, [method, 2, 3, 0, 0], &drawn(&mut draws));
    }
    Generated {
        bytes: out,
        instructions: 4 + 5 * u64::from(methods) + 4 + OF_A_BODY * u64::from(methods),
    }
}
