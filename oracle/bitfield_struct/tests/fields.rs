//! The attribute `bitfield` on a struct with each sort of field that the upstream files have.

use bitfield_struct::bitfield;

#[derive(Debug, Clone, Copy, PartialEq, Eq)]
struct Nibble(u8);

impl Nibble {
    const fn from_bits(bits: u8) -> Self {
        Self(bits & 0xF)
    }
    const fn into_bits(self) -> u8 {
        self.0
    }
}

#[bitfield(u32, order = Msb, conversion = false, hash = true, new = false, default = false)]
#[derive(PartialEq, Eq)]
struct Narrow {
    #[bits(4, access = RO)]
    kind: Nibble,
    #[bits(4)]
    group: Nibble,
    #[bits(4, access = RO)]
    opcode: u8,
    #[bits(4)]
    channel: Nibble,
    #[bits(1)]
    __: u8,
    #[bits(7, access = RO)]
    first: u8,
    #[bits(1)]
    __: u8,
    #[bits(7, access = RO)]
    second: u8,
}

#[bitfield(u64, order = Msb, conversion = false, hash = true)]
#[derive(PartialEq, Eq)]
struct Wide {
    #[bits(4, default = Nibble(4), access = RO)]
    kind: Nibble,
    #[bits(4)]
    group: Nibble,
    #[bits(4, default = 0xE, access = RO)]
    opcode: u8,
    #[bits(19)]
    __: u32,
    flag: bool,
    value: i32,
}

#[test]
fn fields_are_cut_from_the_highest_bits_down() {
    let word = Narrow(0x2AB5_E4F3);
    assert_eq!(word.kind(), Nibble(2));
    assert_eq!(word.group(), Nibble(0xA));
    assert_eq!(word.opcode(), 0xB);
    assert_eq!(word.channel(), Nibble(5));
    assert_eq!(word.first(), 0x64);
    assert_eq!(word.second(), 0x73);
}

#[test]
fn a_field_is_written_and_the_rest_stays() {
    let mut word = Narrow(0x2AB5_E4F3).with_group(Nibble(1));
    assert_eq!(word.0, 0x21B5_E4F3);
    word.set_channel(Nibble(0xC));
    assert_eq!(word, Narrow(0x21BC_E4F3));
}

#[test]
fn a_new_struct_has_its_defaults() {
    assert_eq!(Wide::new().0, 0x40E0_0000_0000_0000);
    assert_eq!(Wide::default(), Wide::new());
    let wide = Wide::new().with_group(Nibble(3)).with_flag(true);
    let wide = wide.with_value(-2);
    assert_eq!(wide.0, 0x43E0_0001_FFFF_FFFE);
    assert_eq!((wide.kind(), wide.opcode()), (Nibble(4), 0xE));
    assert_eq!(
        (wide.group(), wide.flag(), wide.value()),
        (Nibble(3), true, -2)
    );
}
