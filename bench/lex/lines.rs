//! Lines of characters of two, three and four bytes: the load's name, its bar if it has one, and a line.

pub const LINES: [(&str, &str, &str); 8] = [
    ("two-byte characters, short atoms", "", "(шаг правило-первое (посылка) (верно (след нуль)))\u{A0}; примечание\n"),
    ("two-byte characters, long atoms", "", "тысячачертейвтихомомуте водавключевомколодце\n"),
    ("three-byte characters, short atoms", "0.8", "(步骤 规则第一 (前提) (成立 (后继 零)))\u{3000}; 注释一下\n"),
    ("three-byte characters, long atoms", "0.8", "天地玄黄宇宙洪荒日月盈昃辰宿列张\n"),
    ("three-byte characters below 3000", "", "(ขั้นตอน กฎ (สมมติฐาน) (เป็นจริง (ถัดไป ศูนย์)))\n"),
    ("three-byte white space", "", "(a\u{2003}b\u{2009}c\u{2028}d\u{205F}e\u{3000}f\u{1680}g)\n"),
    ("four-byte characters, short atoms", "", "(😀😁 🚀🚁🚂 (𝒜𝒞) (𝔞𝔟 (𝟘 𝟙)))\n"),
    ("four-byte characters, long atoms", "", "😀😁😂😃😄😅😆😇😈😉😊😋😌😍😎😏\n"),
];
