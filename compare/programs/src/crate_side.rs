//! The crate's side: its opcodes as the words of document 01.
use cafebabe::bytecode::{ByteCode, Opcode, PrimitiveArrayType};
use cafebabe::constant_pool::{LiteralConstant, Loadable, MemberRef, ObjectArrayType};

/// The crate resolves a pool index and forgets it. In a made pool (see `pools`) the index is told from what was resolved;
/// in a real class it cannot be, and is written as 0.
#[derive(Clone, Copy)]
pub enum Indices {
    Told,
    Zero,
}

/// The digits of a name that holds its entry's index.
fn digits(name: &str) -> u32 {
    let digits: String = name.chars().filter(|c| c.is_ascii_digit()).collect();
    digits.parse().unwrap()
}

fn member(m: &MemberRef) -> u32 {
    digits(&m.name_and_type.name)
}

fn class(c: &ObjectArrayType) -> u32 {
    match c {
        ObjectArrayType::ArrayType(descriptor) => digits(&descriptor.to_string()),
        ObjectArrayType::BinaryName(name) => digits(name),
    }
}

fn literal(c: &LiteralConstant) -> u32 {
    match c {
        LiteralConstant::Integer(i) => *i as u32,
        LiteralConstant::Float(f) => *f as u32,
        LiteralConstant::Long(i) => *i as u32,
        LiteralConstant::Double(f) => *f as u32,
        LiteralConstant::String(text) => digits(text),
        LiteralConstant::StringBytes(_) => unreachable!("a made pool holds plain texts"),
    }
}

fn loadable(l: &Loadable) -> u32 {
    match l {
        Loadable::LiteralConstant(c) => literal(c),
        Loadable::ClassInfo(name) => digits(name),
        // The handle is the entry after its member.
        Loadable::MethodHandle(h) => digits(&h.member_ref.name) + 1,
        Loadable::MethodType(text) => digits(text),
        Loadable::Dynamic(d) => d.attr_index as u32,
    }
}

fn array_tag(t: &PrimitiveArrayType) -> u32 {
    match t {
        PrimitiveArrayType::Boolean => 4,
        PrimitiveArrayType::Char => 5,
        PrimitiveArrayType::Float => 6,
        PrimitiveArrayType::Double => 7,
        PrimitiveArrayType::Byte => 8,
        PrimitiveArrayType::Short => 9,
        PrimitiveArrayType::Int => 10,
        PrimitiveArrayType::Long => 11,
    }
}

/// The six words of an instruction, one line for each opcode; its switch entries are added to those stored before it.
fn words(offset: usize, op: &Opcode, indices: Indices, entries: &mut Vec<u32>) -> [u32; 6] {
    let stored = (entries.len() / 2) as u32;
    let o = offset as u32;
    let index = |told: &dyn Fn() -> u32| match indices {
        Indices::Told => told(),
        Indices::Zero => 0,
    };
    let p = |k: u32| [o, k, 0, 0, 0, 0];
    let one = |k: u32, a: u32| [o, k, a, 0, 0, 0];
    let two = |k: u32, a: u32, b: u32| [o, k, a, b, 0, 0];
    match op {
        Opcode::Nop => p(0x00),
        Opcode::AconstNull => p(0x01),
        Opcode::IconstM1 => p(0x02),
        Opcode::Iconst0 => p(0x03),
        Opcode::Iconst1 => p(0x04),
        Opcode::Iconst2 => p(0x05),
        Opcode::Iconst3 => p(0x06),
        Opcode::Iconst4 => p(0x07),
        Opcode::Iconst5 => p(0x08),
        Opcode::Lconst0 => p(0x09),
        Opcode::Lconst1 => p(0x0a),
        Opcode::Fconst0 => p(0x0b),
        Opcode::Fconst1 => p(0x0c),
        Opcode::Fconst2 => p(0x0d),
        Opcode::Dconst0 => p(0x0e),
        Opcode::Dconst1 => p(0x0f),
        Opcode::Iaload => p(0x2e),
        Opcode::Laload => p(0x2f),
        Opcode::Faload => p(0x30),
        Opcode::Daload => p(0x31),
        Opcode::Aaload => p(0x32),
        Opcode::Baload => p(0x33),
        Opcode::Caload => p(0x34),
        Opcode::Saload => p(0x35),
        Opcode::Iastore => p(0x4f),
        Opcode::Lastore => p(0x50),
        Opcode::Fastore => p(0x51),
        Opcode::Dastore => p(0x52),
        Opcode::Aastore => p(0x53),
        Opcode::Bastore => p(0x54),
        Opcode::Castore => p(0x55),
        Opcode::Sastore => p(0x56),
        Opcode::Pop => p(0x57),
        Opcode::Pop2 => p(0x58),
        Opcode::Dup => p(0x59),
        Opcode::DupX1 => p(0x5a),
        Opcode::DupX2 => p(0x5b),
        Opcode::Dup2 => p(0x5c),
        Opcode::Dup2X1 => p(0x5d),
        Opcode::Dup2X2 => p(0x5e),
        Opcode::Swap => p(0x5f),
        Opcode::Iadd => p(0x60),
        Opcode::Ladd => p(0x61),
        Opcode::Fadd => p(0x62),
        Opcode::Dadd => p(0x63),
        Opcode::Isub => p(0x64),
        Opcode::Lsub => p(0x65),
        Opcode::Fsub => p(0x66),
        Opcode::Dsub => p(0x67),
        Opcode::Imul => p(0x68),
        Opcode::Lmul => p(0x69),
        Opcode::Fmul => p(0x6a),
        Opcode::Dmul => p(0x6b),
        Opcode::Idiv => p(0x6c),
        Opcode::Ldiv => p(0x6d),
        Opcode::Fdiv => p(0x6e),
        Opcode::Ddiv => p(0x6f),
        Opcode::Irem => p(0x70),
        Opcode::Lrem => p(0x71),
        Opcode::Frem => p(0x72),
        Opcode::Drem => p(0x73),
        Opcode::Ineg => p(0x74),
        Opcode::Lneg => p(0x75),
        Opcode::Fneg => p(0x76),
        Opcode::Dneg => p(0x77),
        Opcode::Ishl => p(0x78),
        Opcode::Lshl => p(0x79),
        Opcode::Ishr => p(0x7a),
        Opcode::Lshr => p(0x7b),
        Opcode::Iushr => p(0x7c),
        Opcode::Lushr => p(0x7d),
        Opcode::Iand => p(0x7e),
        Opcode::Land => p(0x7f),
        Opcode::Ior => p(0x80),
        Opcode::Lor => p(0x81),
        Opcode::Ixor => p(0x82),
        Opcode::Lxor => p(0x83),
        Opcode::I2l => p(0x85),
        Opcode::I2f => p(0x86),
        Opcode::I2d => p(0x87),
        Opcode::L2i => p(0x88),
        Opcode::L2f => p(0x89),
        Opcode::L2d => p(0x8a),
        Opcode::F2i => p(0x8b),
        Opcode::F2l => p(0x8c),
        Opcode::F2d => p(0x8d),
        Opcode::D2i => p(0x8e),
        Opcode::D2l => p(0x8f),
        Opcode::D2f => p(0x90),
        Opcode::I2b => p(0x91),
        Opcode::I2c => p(0x92),
        Opcode::I2s => p(0x93),
        Opcode::Lcmp => p(0x94),
        Opcode::Fcmpl => p(0x95),
        Opcode::Fcmpg => p(0x96),
        Opcode::Dcmpl => p(0x97),
        Opcode::Dcmpg => p(0x98),
        Opcode::Ireturn => p(0xac),
        Opcode::Lreturn => p(0xad),
        Opcode::Freturn => p(0xae),
        Opcode::Dreturn => p(0xaf),
        Opcode::Areturn => p(0xb0),
        Opcode::Return => p(0xb1),
        Opcode::Arraylength => p(0xbe),
        Opcode::Athrow => p(0xbf),
        Opcode::Monitorenter => p(0xc2),
        Opcode::Monitorexit => p(0xc3),
        Opcode::Breakpoint => p(0xca),
        Opcode::Impdep1 => p(0xfe),
        Opcode::Impdep2 => p(0xff),
        Opcode::Ifeq(j) => one(0x99, *j as u32),
        Opcode::Ifne(j) => one(0x9a, *j as u32),
        Opcode::Iflt(j) => one(0x9b, *j as u32),
        Opcode::Ifge(j) => one(0x9c, *j as u32),
        Opcode::Ifgt(j) => one(0x9d, *j as u32),
        Opcode::Ifle(j) => one(0x9e, *j as u32),
        Opcode::IfIcmpeq(j) => one(0x9f, *j as u32),
        Opcode::IfIcmpne(j) => one(0xa0, *j as u32),
        Opcode::IfIcmplt(j) => one(0xa1, *j as u32),
        Opcode::IfIcmpge(j) => one(0xa2, *j as u32),
        Opcode::IfIcmpgt(j) => one(0xa3, *j as u32),
        Opcode::IfIcmple(j) => one(0xa4, *j as u32),
        Opcode::IfAcmpeq(j) => one(0xa5, *j as u32),
        Opcode::IfAcmpne(j) => one(0xa6, *j as u32),
        Opcode::Goto(j) => one(0xa7, *j as u32),
        Opcode::Jsr(j) => one(0xa8, *j as u32),
        Opcode::Ifnull(j) => one(0xc6, *j as u32),
        Opcode::Ifnonnull(j) => one(0xc7, *j as u32),
        Opcode::Iload(l) => one(0x15, *l as u32),
        Opcode::Lload(l) => one(0x16, *l as u32),
        Opcode::Fload(l) => one(0x17, *l as u32),
        Opcode::Dload(l) => one(0x18, *l as u32),
        Opcode::Aload(l) => one(0x19, *l as u32),
        Opcode::Istore(l) => one(0x36, *l as u32),
        Opcode::Lstore(l) => one(0x37, *l as u32),
        Opcode::Fstore(l) => one(0x38, *l as u32),
        Opcode::Dstore(l) => one(0x39, *l as u32),
        Opcode::Astore(l) => one(0x3a, *l as u32),
        Opcode::Ret(l) => one(0xa9, *l as u32),
        Opcode::Ldc(l) => one(0x12, index(&|| loadable(l))),
        Opcode::LdcW(l) => one(0x13, index(&|| loadable(l))),
        Opcode::Ldc2W(l) => one(0x14, index(&|| loadable(l))),
        Opcode::Getstatic(m) => one(0xb2, index(&|| member(m))),
        Opcode::Putstatic(m) => one(0xb3, index(&|| member(m))),
        Opcode::Getfield(m) => one(0xb4, index(&|| member(m))),
        Opcode::Putfield(m) => one(0xb5, index(&|| member(m))),
        Opcode::Invokevirtual(m) => one(0xb6, index(&|| member(m))),
        Opcode::Invokespecial(m) => one(0xb7, index(&|| member(m))),
        Opcode::Invokestatic(m) => one(0xb8, index(&|| member(m))),
        Opcode::Invokeinterface(m, c) => two(0xb9, index(&|| member(m)), *c as u32),
        Opcode::Invokedynamic(d) => one(0xba, index(&|| d.attr_index as u32)),
        Opcode::New(n) => one(0xbb, index(&|| digits(n))),
        Opcode::Anewarray(c) => one(0xbd, index(&|| class(c))),
        Opcode::Checkcast(c) => one(0xc0, index(&|| class(c))),
        Opcode::Instanceof(c) => one(0xc1, index(&|| class(c))),
        Opcode::Multianewarray(c, d) => two(0xc5, index(&|| class(c)), *d as u32),
        Opcode::Bipush(v) => one(0x10, *v as i32 as u32),
        Opcode::Sipush(v) => one(0x11, *v as i32 as u32),
        Opcode::Iinc(l, v) => two(0x84, *l as u32, *v as i32 as u32),
        Opcode::Newarray(t) => one(0xbc, array_tag(t)),
        Opcode::Tableswitch(t) => {
            for (i, j) in t.jumps.iter().enumerate() {
                entries.push((t.low as u32).wrapping_add(i as u32));
                entries.push(*j as u32);
            }
            [o, 0xaa, t.default as u32, t.low as u32, t.high as u32, stored]
        }
        Opcode::Lookupswitch(t) => {
            for (k, j) in &t.match_offsets {
                entries.push(*k as u32);
                entries.push(*j as u32);
            }
            [o, 0xab, t.default as u32, t.match_offsets.len() as u32, 0, stored]
        }
    }
}

/// All words of both stores.
pub fn stores(code: &ByteCode, indices: Indices, records: &mut Vec<u32>, entries: &mut Vec<u32>) {
    records.clear();
    entries.clear();
    for (offset, op) in &code.opcodes {
        records.extend_from_slice(&words(*offset, op, indices, entries));
    }
}
