//! The indices of definitions and bodies.
use crate::value::*;

fn visit_traits(traits: &mut [Trait], visit: &mut impl FnMut(Pool, &mut u32)) {
    for one in traits {
        visit(Pool::Names, &mut one.name);
        if one.is_slot() {
            visit(Pool::Names, &mut one.target);
            visit_value(&mut one.value, visit);
        }
    }
}

fn visit_value(value: &mut Value, visit: &mut impl FnMut(Pool, &mut u32)) {
    let pool = pool_of_kind(value.kind).expect("a value has no other kinds");
    visit(pool, &mut value.index);
}

fn visit_method(method: &mut Method, visit: &mut impl FnMut(Pool, &mut u32)) {
    visit(Pool::Names, &mut method.result);
    method
        .params
        .iter_mut()
        .for_each(|param| visit(Pool::Names, param));
    visit(Pool::Strings, &mut method.name);
    method
        .options
        .iter_mut()
        .for_each(|option| visit_value(option, visit));
    method
        .param_names
        .iter_mut()
        .for_each(|name| visit(Pool::Strings, name));
}

fn visit_instance(instance: &mut Instance, visit: &mut impl FnMut(Pool, &mut u32)) {
    visit(Pool::Names, &mut instance.name);
    visit(Pool::Names, &mut instance.base);
    visit(Pool::Spaces, &mut instance.protected);
    instance
        .interfaces
        .iter_mut()
        .for_each(|interface| visit(Pool::Names, interface));
    visit_traits(&mut instance.traits, visit);
}

fn visit_body(body: &mut Body, visit: &mut impl FnMut(Pool, &mut u32)) {
    for instruction in &mut body.code.instructions {
        visit(instruction.pool(), &mut instruction.first);
    }
    for handler in &mut body.handlers {
        visit(Pool::Names, &mut handler.kind);
        visit(Pool::Names, &mut handler.name);
    }
    visit_traits(&mut body.traits, visit);
}

/// Goes over all indices in file order, each with its pool; what is into none is among them.
pub fn visit_indices(f: &mut File, visit: &mut impl FnMut(Pool, &mut u32)) {
    f.methods
        .iter_mut()
        .for_each(|method| visit_method(method, visit));
    for metadata in &mut f.metadata {
        visit(Pool::Strings, &mut metadata.name);
        metadata
            .items
            .iter_mut()
            .for_each(|item| visit(Pool::Strings, item));
    }
    f.instances
        .iter_mut()
        .for_each(|instance| visit_instance(instance, visit));
    f.classes
        .iter_mut()
        .chain(&mut f.scripts)
        .for_each(|owner| visit_traits(&mut owner.traits, visit));
    f.bodies.iter_mut().for_each(|body| visit_body(body, visit));
}
