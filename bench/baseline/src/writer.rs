//! The canonical bytes of a value.
use crate::opcodes::{Form, form};
use crate::value::*;

/// Code has fewer bytes.
pub const CODE_LIMIT: usize = 1 << 23;

fn put(out: &mut Vec<u8>, mut value: u32) {
    while value >= 0x80 {
        out.push(value as u8 | 0x80);
        value >>= 7;
    }
    out.push(value as u8);
}

fn put_all(out: &mut Vec<u8>, values: &[u32]) {
    values.iter().for_each(|&value| put(out, value));
}

fn put_counted(out: &mut Vec<u8>, values: &[u32]) {
    put(out, values.len() as u32);
    put_all(out, values);
}

/// How many bytes a number takes.
fn size(value: u32) -> u32 {
    (38 - (value | 1).leading_zeros()) / 7
}

fn put_pool<T>(out: &mut Vec<u8>, pool: &[T], entry: impl Fn(&mut Vec<u8>, &T)) {
    put(
        out,
        if pool.is_empty() {
            0
        } else {
            pool.len() as u32 + 1
        },
    );
    pool.iter().for_each(|one| entry(out, one));
}

fn put_list<T>(out: &mut Vec<u8>, items: &[T], item: impl Fn(&mut Vec<u8>, &T)) {
    put(out, items.len() as u32);
    items.iter().for_each(|one| item(out, one));
}

fn put_name(out: &mut Vec<u8>, name: &Multiname) {
    out.push(name.kind);
    match &name.name {
        Name::Qualified { space, name } => put_all(out, &[*space, *name]),
        Name::Runtime { name } => put(out, *name),
        Name::RuntimeLate => {}
        Name::Multi { name, set } => put_all(out, &[*name, *set]),
        Name::MultiLate { set } => put(out, *set),
        Name::Type { base, params } => {
            put(out, *base);
            put_counted(out, params);
        }
    }
}

fn put_pools(out: &mut Vec<u8>, f: &File) {
    put_pool(out, &f.ints, |out, &value| put(out, value));
    put_pool(out, &f.uints, |out, &value| put(out, value));
    put_pool(out, &f.doubles, |out, bytes| out.extend_from_slice(bytes));
    put_pool(out, &f.strings, |out, text| {
        put(out, text.len() as u32);
        out.extend_from_slice(text);
    });
    put_pool(out, &f.spaces, |out, space| {
        out.push(space.kind);
        put(out, space.name);
    });
    put_pool(out, &f.sets, |out, set| put_counted(out, set));
    put_pool(out, &f.names, put_name);
}

fn put_value(out: &mut Vec<u8>, value: &Value) {
    put(out, value.index);
    out.push(value.kind);
}

fn put_method(out: &mut Vec<u8>, method: &Method) {
    put(out, method.params.len() as u32);
    put(out, method.result);
    put_all(out, &method.params);
    put(out, method.name);
    out.push(method.flags);
    if method.flags & HAS_OPTIONS != 0 {
        put_list(out, &method.options, put_value);
    }
    put_all(out, &method.param_names);
}

fn put_metadata(out: &mut Vec<u8>, metadata: &Metadata) {
    put(out, metadata.name);
    put(out, metadata.items.len() as u32 / 2);
    put_all(out, &metadata.items);
}

fn put_trait(out: &mut Vec<u8>, one: &Trait) {
    put(out, one.name);
    out.push(one.attributes << 4 | one.kind);
    put(out, one.id);
    put(out, one.target);
    if one.is_slot() {
        put(out, one.value.index);
        if one.value.index != 0 {
            out.push(one.value.kind);
        }
    }
    if one.attributes & HAS_METADATA != 0 {
        put_counted(out, &one.metadata);
    }
}

fn put_instance(out: &mut Vec<u8>, instance: &Instance) {
    put_all(out, &[instance.name, instance.base]);
    out.push(instance.flags);
    if instance.flags & HAS_PROTECTED != 0 {
        put(out, instance.protected);
    }
    put_counted(out, &instance.interfaces);
    put(out, instance.init);
    put_list(out, &instance.traits, put_trait);
}

fn put_owner(out: &mut Vec<u8>, owner: &Owner) {
    put(out, owner.init);
    put_list(out, &owner.traits, put_trait);
}

fn put_definitions(out: &mut Vec<u8>, f: &File) {
    put_list(out, &f.methods, put_method);
    put_list(out, &f.metadata, put_metadata);
    put_list(out, &f.instances, put_instance);
    f.classes.iter().for_each(|class| put_owner(out, class));
    put_list(out, &f.scripts, put_owner);
}

/// The bytes that an instruction takes.
fn length(instruction: &Instruction) -> u32 {
    let (first, second) = (instruction.first, instruction.second);
    match form(instruction.opcode) {
        Form::Plain => 1,
        Form::NameCount | Form::Numbers => 1 + size(first) + size(second),
        Form::Branch => 4,
        Form::Switch => 1 + size(second - 2) + 3 * second,
        Form::SignedByte | Form::Scope => 2,
        Form::Debug => 3 + size(first) + size(second),
        _ => 1 + size(first),
    }
}

/// Puts where each instruction starts in place of the list, and where the code ends.
fn start_places(code: &Code, starts: &mut Vec<u32>) -> usize {
    starts.clear();
    let mut place = 0u64;
    for instruction in &code.instructions {
        starts.push(place as u32);
        place += u64::from(length(instruction));
    }
    starts.push(place as u32);
    place as usize
}

/// The bytes that the code takes.
pub fn code_length(code: &Code) -> usize {
    code.instructions
        .iter()
        .map(|one| length(one) as usize)
        .sum()
}

fn put_offset(out: &mut Vec<u8>, target: u32, base: u32) {
    out.extend_from_slice(&target.wrapping_sub(base).to_le_bytes()[..3]);
}

fn put_switch(out: &mut Vec<u8>, code: &Code, n: usize, starts: &[u32]) {
    let instruction = &code.instructions[n];
    let targets = &code.targets[instruction.switch_targets()];
    put_offset(out, starts[targets[0] as usize], starts[n]);
    put(out, instruction.second - 2);
    for &target in &targets[1..] {
        put_offset(out, starts[target as usize], starts[n]);
    }
}

fn put_instruction(out: &mut Vec<u8>, code: &Code, n: usize, starts: &[u32]) {
    let one = &code.instructions[n];
    out.push(one.opcode);
    match form(one.opcode) {
        Form::Plain => {}
        Form::NameCount | Form::Numbers => {
            put(out, one.first);
            put(out, one.second);
        }
        Form::Branch => put_offset(out, starts[one.first as usize], starts[n + 1]),
        Form::Switch => put_switch(out, code, n, starts),
        Form::SignedByte | Form::Scope => out.push(one.byte),
        Form::Debug => {
            out.push(one.byte);
            put(out, one.first);
            out.push(one.register);
            put(out, one.second);
        }
        _ => put(out, one.first),
    }
}

/// Puts a body, unless its code is too long.
fn put_body(out: &mut Vec<u8>, body: &Body, starts: &mut Vec<u32>) -> Option<()> {
    let length = start_places(&body.code, starts);
    if length >= CODE_LIMIT {
        return None;
    }
    put_all(
        out,
        &[
            body.method,
            body.stack,
            body.locals,
            body.scope,
            body.scopes,
            length as u32,
        ],
    );
    for n in 0..body.code.instructions.len() {
        put_instruction(out, &body.code, n, starts);
    }
    put_list(out, &body.handlers, |out, handler| {
        let places = [handler.from, handler.to, handler.target].map(|n| starts[n as usize]);
        put_all(out, &places);
        put_all(out, &[handler.kind, handler.name]);
    });
    put_list(out, &body.traits, put_trait);
    Some(())
}

/// The canonical bytes, if there are at most so many.
pub fn canonical(f: &File, most: usize) -> Option<Vec<u8>> {
    let mut out = vec![16, 0, 46, 0];
    put_pools(&mut out, f);
    put_definitions(&mut out, f);
    put(&mut out, f.bodies.len() as u32);
    let mut starts = Vec::new();
    for body in &f.bodies {
        put_body(&mut out, body, &mut starts)?;
    }
    (out.len() <= most).then_some(out)
}
