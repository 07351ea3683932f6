//! The worked example of "panelrun and its log", to the byte.

use model::{panelrun, print, table};

const LOG: [u32; 7] =
    [0x8000_0000, 0xC000_03E7, 0x8000_0000, 0xC000_03E8, 0x4000_0001, 0x8000_0000, 0xC000_03E6];

const OUTPUT: &str = "\
event kind result shown error outs analog note
1 T 999 999 0 0000 3273 0
2 T 1000 1000 0 1000 3277 0
3 I 0 0 0 0000 0 0
4 T -2 -2 0 0000 -7 0
end 0
";

fn input() -> Vec<u8> {
    let mut words = table::defaults();
    words[2] = 1;
    words[49] = 1;
    panelrun::input_of(&words, &LOG)
}

#[test]
fn reference_prints_the_example() {
    assert_eq!(panelrun::run(&input()), OUTPUT);
}

#[test]
fn fast_path_prints_the_example() {
    let mut output = Vec::new();
    print::print(&input()[..], &mut output).unwrap();
    assert_eq!(String::from_utf8(output).unwrap(), OUTPUT);
}
