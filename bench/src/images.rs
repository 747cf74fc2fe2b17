//! The images that are timed, by hand (RFC 9669; docs/BPF.md has the format of an image).

const MOV: u8 = 0xB7;
const MOV_REGISTER: u8 = 0xBF;
const MOV32_REGISTER: u8 = 0xBC;
const ADD: u8 = 0x07;
const MOV32: u8 = 0xB4;
const ADD_REGISTER: u8 = 0x0F;
const SUB: u8 = 0x17;
const AND: u8 = 0x57;
const RSH: u8 = 0x77;
const XOR: u8 = 0xA7;
const LSH: u8 = 0x67;
const BE: u8 = 0xDC;
const LDXB: u8 = 0x71;
const LDXW: u8 = 0x61;
const LDXDW: u8 = 0x79;
const STXDW: u8 = 0x7B;
const JEQ: u8 = 0x15;
const JNE: u8 = 0x55;
const JLT: u8 = 0xA5;
const JGE: u8 = 0x35;
const JLT_REGISTER: u8 = 0xAD;
const JGT_REGISTER: u8 = 0x2D;
const JGT32: u8 = 0x26;
const CALL: u8 = 0x85;
const LOAD_MAP: (u8, u8) = (0x18, 5);
const EXIT: u8 = 0x95;

type Slot = [u8; 8];

fn insn(opcode: u8, dst: u8, src: u8, offset: i16, immediate: u32) -> Slot {
    let [o0, o1] = offset.to_le_bytes();
    let [i0, i1, i2, i3] = immediate.to_le_bytes();
    [opcode, src << 4 | dst, o0, o1, i0, i1, i2, i3]
}

/// A declared loop: its first and last slot, its bound and its register.
fn declared(head: u16, back: u16, bound: u16, register: u8) -> Slot {
    let ([h0, h1], [b0, b1], [n0, n1]) = (head.to_le_bytes(), back.to_le_bytes(), bound.to_le_bytes());
    [h0, h1, b0, b1, n0, n1, register, 0]
}

/// The image of these loops and slots.
fn image_with(budget: u32, loops: &[Slot], slots: &[Slot]) -> Vec<u8> {
    let mut bytes = b"BPFA\x01".to_vec();
    bytes.push(loops.len() as u8);
    bytes.extend((slots.len() as u16).to_le_bytes());
    bytes.extend(budget.to_le_bytes());
    bytes.extend([0; 4]);
    bytes.extend(loops.iter().flatten());
    bytes.extend(slots.iter().flatten());
    bytes
}

/// The image of these slots, without loops, whose budget is its number of slots.
fn image(slots: &[Slot]) -> Vec<u8> {
    image_with(slots.len() as u32, &[], slots)
}

/// The same image with a first instruction that may not stand there, a write to r10: it is read whole, and refused at slot 0.
/// The condition is a first instruction of one slot.
pub fn refused_at_once(image: &[u8]) -> Vec<u8> {
    let mut bytes = image.to_vec();
    let first = 16 + 8 * usize::from(bytes[5]);
    bytes[first..first + 8].copy_from_slice(&insn(MOV, 10, 0, 0, 0));
    bytes
}

/// Yes to every command.
pub fn yes() -> Vec<u8> {
    image(&[insn(MOV, 0, 0, 0, 0), insn(EXIT, 0, 0, 0, 0)])
}

/// A ticket of the only cell of map 0: the first five runs say yes.
pub fn quota() -> Vec<u8> {
    let (opcode, subtype) = LOAD_MAP;
    let slots = [
        insn(opcode, 1, subtype, 0, 0),
        insn(0, 0, 0, 0, 0),
        insn(MOV, 2, 0, 0, 0),
        insn(CALL, 0, 0, 0, 2),
        insn(JLT, 0, 0, 2, 5),
        insn(MOV, 0, 0, 0, 10),
        insn(EXIT, 0, 0, 0, 0),
        insn(MOV, 0, 0, 0, 0),
        insn(EXIT, 0, 0, 0, 0),
    ];
    image_with(8, &[], &slots)
}

/// Eight slots of arithmetic, loads from the header, the stack and a jump that is not taken.
fn work(offset: i16) -> [Slot; 8] {
    [
        insn(LDXB, 5, 2, offset, 0),
        insn(ADD_REGISTER, 0, 5, 0, 0),
        insn(STXDW, 10, 0, -8, 0),
        insn(LDXDW, 6, 10, -8, 0),
        insn(XOR, 6, 0, 0, 0x55),
        insn(LSH, 6, 0, 0, 1),
        insn(JEQ, 6, 0, 1, 0x7FFF_FFFF),
        insn(MOV32_REGISTER, 7, 6, 0, 0),
    ]
}

/// The end of a loop: the register is counted down, and while it is not zero so many slots are gone back.
fn again(register: u8, back: i16) -> [Slot; 2] {
    [
        insn(ADD, register, 0, 0, u32::MAX),
        insn(JNE, register, 0, back, 0),
    ]
}

/// 512 slots of work.
pub fn straight() -> Vec<u8> {
    straight_of(512)
}

/// So many slots of work, at least eight.
pub fn straight_of(count: usize) -> Vec<u8> {
    let mut slots = vec![insn(MOV, 0, 0, 0, 1), insn(STXDW, 10, 0, -8, 0)];
    for k in 0..(count - 4) / 8 {
        slots.extend(work((k % 12) as i16));
    }
    slots.resize(count - 2, insn(MOV, 8, 0, 0, 0));
    slots.extend([insn(MOV, 0, 0, 0, 0), insn(EXIT, 0, 0, 0, 0)]);
    image(&slots)
}

/// So many rounds of a loop of three slots: three steps a round, and three.
pub fn counting_of(rounds: u16) -> Vec<u8> {
    let mut slots = vec![
        insn(MOV, 0, 0, 0, 0),
        insn(MOV, 6, 0, 0, u32::from(rounds)),
        insn(MOV, 7, 0, 0, 0),
    ];
    slots.extend(again(6, -3));
    slots.push(insn(EXIT, 0, 0, 0, 0));
    image_with(3 * u32::from(rounds) + 3, &[declared(2, 4, rounds, 6)], &slots)
}

/// The weight that a program may have at most.
const BUDGET: u32 = 65_536;

/// How often a loop is passed at most.
const MOST_ROUNDS: u32 = 4_096;

/// A program of loops that fill the greatest budget, and how many parts a run of it takes.
pub struct Full {
    pub image: Vec<u8>,
    pub parts: u32,
}

/// The program that begins with these slots and goes through a body, in loops of that counter one after the other, as often as
/// the budget allows. A round takes so many parts: instructions that are done, or what else is counted.
fn full(front: &[Slot], body: &[Slot], counter: u8, parts: u32) -> Full {
    let wide = body.iter().filter(|slot| slot[0] == LOAD_MAP.0).count();
    let weight = (body.len() - wide + 2) as u32;
    let all = (BUDGET - front.len() as u32 - 16) / weight;
    let count = all.div_ceil(MOST_ROUNDS);
    let rounds = all / count;
    let mut slots = front.to_vec();
    let mut loops = Vec::new();
    for _ in 0..count {
        slots.push(insn(MOV, counter, 0, 0, rounds));
        let head = slots.len() as u16;
        slots.extend(body);
        slots.extend(again(counter, -2 - body.len() as i16));
        loops.push(declared(head, slots.len() as u16 - 1, rounds as u16, counter));
    }
    slots.extend([insn(MOV, 0, 0, 0, 0), insn(EXIT, 0, 0, 0, 0)]);
    Full { image: image_with(BUDGET, &loops, &slots), parts: count * rounds * parts }
}

/// A loop of three slots.
pub fn full_of_counting() -> Full {
    full(&[insn(MOV, 0, 0, 0, 0)], &[insn(MOV, 7, 0, 0, 0)], 6, 3)
}

/// A loop of 480 slots of work.
pub fn full_of_work() -> Full {
    let body: Vec<Slot> = (0..60).flat_map(|k| work(k % 12)).collect();
    full(&[insn(MOV, 0, 0, 0, 1), insn(STXDW, 10, 0, -8, 0)], &body, 8, 482)
}

/// A loop of thirteen rules on initiator and address that do not match, five steps each.
pub fn full_of_rules() -> Full {
    let body: Vec<Slot> = (0..13).flat_map(|k| field_rule(0x9000_0000 + k)).collect();
    full(&[], &body, 8, 13 * 5 + 2)
}

/// A loop of ten instructions with loads, a store and a call.
pub fn full_of_asking() -> Full {
    let (opcode, subtype) = LOAD_MAP;
    let body = [
        insn(LDXB, 5, 8, 0, 0),
        insn(ADD_REGISTER, 7, 5, 0, 0),
        insn(STXDW, 10, 7, -8, 0),
        insn(LDXDW, 9, 10, -8, 0),
        insn(opcode, 1, subtype, 0, 0),
        insn(0, 0, 0, 0, 0),
        insn(MOV, 2, 0, 0, 0),
        insn(CALL, 0, 0, 0, 2),
        insn(ADD_REGISTER, 7, 0, 0, 0),
    ];
    full(&[insn(MOV_REGISTER, 8, 2, 0, 0), insn(MOV, 7, 0, 0, 0)], &body, 6, 10)
}

/// A loop of five instructions, of which one is a call; a call is a part.
pub fn full_of_calls() -> Full {
    let (opcode, subtype) = LOAD_MAP;
    let body = [
        insn(opcode, 1, subtype, 0, 0),
        insn(0, 0, 0, 0, 0),
        insn(MOV, 2, 0, 0, 0),
        insn(CALL, 0, 0, 0, 2),
    ];
    full(&[], &body, 6, 1)
}

/// Eight loops of two rounds in one another.
pub fn nested() -> Vec<u8> {
    let mut slots: Vec<Slot> = (1..9).map(|register| insn(MOV, register, 0, 0, 2)).collect();
    for inside in 0..8u8 {
        slots.extend(again(8 - inside, -2 - 3 * i16::from(inside)));
    }
    slots.extend([insn(MOV, 0, 0, 0, 0), insn(EXIT, 0, 0, 0, 0)]);
    let loops: Vec<Slot> = (1..9u8)
        .map(|k| declared(u16::from(k), 25 - 2 * u16::from(k), 2, k))
        .collect();
    image_with(1_277, &loops, &slots)
}

/// 512 slots of work in eight loops of two rounds, one after the other.
pub fn looping() -> Vec<u8> {
    let mut slots = vec![insn(MOV, 0, 0, 0, 1), insn(STXDW, 10, 0, -8, 0)];
    let mut loops = Vec::new();
    for _ in 0..8 {
        slots.push(insn(MOV, 8, 0, 0, 2));
        let head = slots.len() as u16;
        for k in 0..7 {
            slots.extend(work(k));
        }
        slots.extend(again(8, -58));
        loops.push(declared(head, slots.len() as u16 - 1, 2, 8));
    }
    slots.resize(510, insn(MOV, 9, 0, 0, 0));
    slots.extend([insn(MOV, 0, 0, 0, 0), insn(EXIT, 0, 0, 0, 0)]);
    image_with(65_536, &loops, &slots)
}

/// Forty joins, in that version of the format. Where it spills, a number is put on the stack before each.
pub fn joins(version: u8, spills: bool) -> Vec<u8> {
    let mut slots = vec![insn(MOV, 0, 0, 0, 0), insn(MOV, 4, 0, 0, 0)];
    for place in 1..41 {
        if spills {
            slots.push(insn(STXDW, 10, 3, -8 * place, 0));
        }
        slots.extend([insn(JEQ, 3, 0, 1, 5), insn(MOV, 4, 0, 0, 1)]);
    }
    slots.push(insn(EXIT, 0, 0, 0, 0));
    let mut bytes = image(&slots);
    bytes[4] = version;
    bytes
}

/// A rule on initiator and address that says yes up to that address.
fn field_rule(high: u32) -> [Slot; 7] {
    [
        insn(LDXB, 4, 2, 0, 0),
        insn(JNE, 4, 0, 5, 0x67),
        insn(LDXW, 5, 2, 4, 0),
        insn(BE, 5, 0, 0, 32),
        insn(JGT32, 5, 0, 2, high),
        insn(MOV, 0, 0, 0, 0),
        insn(EXIT, 0, 0, 0, 0),
    ]
}

/// Fourteen rules on initiator and address, of which the last one says yes.
pub fn fields() -> Vec<u8> {
    let highs = (0..13).map(|k| 0x9000_0000 + k).chain([0xB000_0000]);
    let mut slots: Vec<Slot> = highs.flat_map(field_rule).collect();
    slots.extend([insn(MOV, 0, 0, 0, 10), insn(EXIT, 0, 0, 0, 0)]);
    image(&slots)
}

/// The image of a policy table of these rules (docs/BPF.md, the program of a table), each without its last two slots.
fn table(rules: &[Vec<Slot>], verdict: u32) -> Vec<u8> {
    let mut slots = vec![
        insn(MOV_REGISTER, 6, 1, 0, 0),
        insn(MOV_REGISTER, 7, 2, 0, 0),
        insn(LDXW, 8, 7, 4, 0),
        insn(BE, 8, 0, 0, 32),
        insn(MOV_REGISTER, 9, 8, 0, 0),
        insn(LDXB, 0, 6, 2, 0),
        insn(AND, 0, 0, 0, 4),
        insn(JEQ, 0, 0, 6, 0),
        insn(LDXW, 0, 7, 8, 0),
        insn(BE, 0, 0, 0, 32),
        insn(RSH, 0, 0, 0, 8),
        insn(JEQ, 0, 0, 2, 0),
        insn(ADD_REGISTER, 9, 0, 0, 0),
        insn(SUB, 9, 0, 0, 1),
    ];
    for rule in rules {
        slots.extend(rule);
        slots.extend([insn(MOV, 0, 0, 0, verdict), insn(EXIT, 0, 0, 0, 0)]);
    }
    slots.extend([insn(MOV, 0, 0, 0, 10), insn(EXIT, 0, 0, 0, 0)]);
    let maps = slots.iter().filter(|slot| slot[0] == LOAD_MAP.0).count();
    image_with((slots.len() - maps) as u32, &[], &slots)
}

/// `read KEY 67 00 A0000000 A000FFFF`, with `behind` slots behind the range.
fn read_rule(key: u32, behind: i16) -> Vec<Slot> {
    vec![
        insn(LDXB, 0, 6, 2, 0),
        insn(AND, 0, 0, 0, 0xF8),
        insn(JNE, 0, 0, behind + 10, 0x48),
        insn(LDXB, 0, 6, 3, 0),
        insn(JNE, 0, 0, behind + 8, key),
        insn(LDXB, 0, 7, 0, 0),
        insn(JNE, 0, 0, behind + 6, 0x67),
        insn(LDXB, 0, 7, 3, 0),
        insn(JNE, 0, 0, behind + 4, 0),
        insn(MOV32, 0, 0, 0, 0xA000_0000),
        insn(JLT_REGISTER, 8, 0, behind + 2, 0),
        insn(MOV32, 0, 0, 0, 0xA000_FFFF),
        insn(JGT_REGISTER, 9, 0, behind, 0),
    ]
}

/// A policy table of twelve rules, of which the last matches the plain read: the others have another key.
pub fn last_of_twelve() -> Vec<u8> {
    let rules: Vec<Vec<Slot>> = (0..12).map(|k| read_rule(11 - k, 2)).collect();
    table(&rules, 0)
}

/// The largest policy table: twelve rules with every field and a quota of the only cell.
pub fn largest_table() -> Vec<u8> {
    let (opcode, subtype) = LOAD_MAP;
    let mut rule = read_rule(0, 7);
    rule.extend([
        insn(opcode, 1, subtype, 0, 0),
        insn(0, 0, 0, 0, 0),
        insn(MOV, 2, 0, 0, 0),
        insn(CALL, 0, 0, 0, 2),
        insn(JGE, 0, 0, 2, 5),
    ]);
    table(&vec![rule; 12], 0)
}
