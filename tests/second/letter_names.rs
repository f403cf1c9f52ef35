// The letters' published names, and the letters that a name spells: the rows of the clusters.
// It knows no texts and no calls. The names decide; what the appendix prints is held to them.

/// HANGUL CHOSEONG, from 1100: 19 modern initials and 71 old ones.
pub const INITIALS: &str = "KIYEOK SSANGKIYEOK NIEUN TIKEUT SSANGTIKEUT RIEUL MIEUM PIEUP \
    SSANGPIEUP SIOS SSANGSIOS IEUNG CIEUC SSANGCIEUC CHIEUCH KHIEUKH THIEUTH PHIEUPH HIEUH \
    NIEUN-KIYEOK SSANGNIEUN NIEUN-TIKEUT NIEUN-PIEUP TIKEUT-KIYEOK RIEUL-NIEUN SSANGRIEUL \
    RIEUL-HIEUH KAPYEOUNRIEUL MIEUM-PIEUP KAPYEOUNMIEUM PIEUP-KIYEOK PIEUP-NIEUN PIEUP-TIKEUT \
    PIEUP-SIOS PIEUP-SIOS-KIYEOK PIEUP-SIOS-TIKEUT PIEUP-SIOS-PIEUP PIEUP-SSANGSIOS \
    PIEUP-SIOS-CIEUC PIEUP-CIEUC PIEUP-CHIEUCH PIEUP-THIEUTH PIEUP-PHIEUPH KAPYEOUNPIEUP \
    KAPYEOUNSSANGPIEUP SIOS-KIYEOK SIOS-NIEUN SIOS-TIKEUT SIOS-RIEUL SIOS-MIEUM SIOS-PIEUP \
    SIOS-PIEUP-KIYEOK SIOS-SSANGSIOS SIOS-IEUNG SIOS-CIEUC SIOS-CHIEUCH SIOS-KHIEUKH \
    SIOS-THIEUTH SIOS-PHIEUPH SIOS-HIEUH CHITUEUMSIOS CHITUEUMSSANGSIOS CEONGCHIEUMSIOS \
    CEONGCHIEUMSSANGSIOS PANSIOS IEUNG-KIYEOK IEUNG-TIKEUT IEUNG-MIEUM IEUNG-PIEUP IEUNG-SIOS \
    IEUNG-PANSIOS SSANGIEUNG IEUNG-CIEUC IEUNG-CHIEUCH IEUNG-THIEUTH IEUNG-PHIEUPH YESIEUNG \
    CIEUC-IEUNG CHITUEUMCIEUC CHITUEUMSSANGCIEUC CEONGCHIEUMCIEUC CEONGCHIEUMSSANGCIEUC \
    CHIEUCH-KHIEUKH CHIEUCH-HIEUH CHITUEUMCHIEUCH CEONGCHIEUMCHIEUCH PHIEUPH-PIEUP \
    KAPYEOUNPHIEUPH SSANGHIEUH YEORINHIEUH";

/// HANGUL JUNGSEONG, from 1161: 21 modern peaks and 45 old ones.
pub const PEAKS: &str = "A AE YA YAE EO E YEO YE O WA WAE OE YO U WEO WE WI YU EU YI I A-O A-U \
    YA-O YA-YO EO-O EO-U EO-EU YEO-O YEO-U O-EO O-E O-YE O-O O-U YO-YA YO-YAE YO-YEO YO-O YO-I \
    U-A U-AE U-EO-EU U-YE U-U YU-A YU-EO YU-E YU-YEO YU-YE YU-U YU-I EU-U EU-EU YI-U I-A I-YA I-O \
    I-U I-EU I-ARAEA ARAEA ARAEA-EO ARAEA-U ARAEA-I SSANGARAEA";

/// HANGUL JONGSEONG, from 11A8: 27 modern finals and 55 old ones.
pub const FINALS: &str = "KIYEOK SSANGKIYEOK KIYEOK-SIOS NIEUN NIEUN-CIEUC NIEUN-HIEUH TIKEUT \
    RIEUL RIEUL-KIYEOK RIEUL-MIEUM RIEUL-PIEUP RIEUL-SIOS RIEUL-THIEUTH RIEUL-PHIEUPH \
    RIEUL-HIEUH MIEUM PIEUP PIEUP-SIOS SIOS SSANGSIOS IEUNG CIEUC CHIEUCH KHIEUKH THIEUTH \
    PHIEUPH HIEUH KIYEOK-RIEUL KIYEOK-SIOS-KIYEOK NIEUN-KIYEOK NIEUN-TIKEUT NIEUN-SIOS \
    NIEUN-PANSIOS NIEUN-THIEUTH TIKEUT-KIYEOK TIKEUT-RIEUL RIEUL-KIYEOK-SIOS RIEUL-NIEUN \
    RIEUL-TIKEUT RIEUL-TIKEUT-HIEUH SSANGRIEUL RIEUL-MIEUM-KIYEOK RIEUL-MIEUM-SIOS \
    RIEUL-PIEUP-SIOS RIEUL-PIEUP-HIEUH RIEUL-KAPYEOUNPIEUP RIEUL-SSANGSIOS RIEUL-PANSIOS \
    RIEUL-KHIEUKH RIEUL-YEORINHIEUH MIEUM-KIYEOK MIEUM-RIEUL MIEUM-PIEUP MIEUM-SIOS \
    MIEUM-SSANGSIOS MIEUM-PANSIOS MIEUM-CHIEUCH MIEUM-HIEUH KAPYEOUNMIEUM PIEUP-RIEUL \
    PIEUP-PHIEUPH PIEUP-HIEUH KAPYEOUNPIEUP SIOS-KIYEOK SIOS-TIKEUT SIOS-RIEUL SIOS-PIEUP PANSIOS \
    IEUNG-KIYEOK IEUNG-SSANGKIYEOK SSANGIEUNG IEUNG-KHIEUKH YESIEUNG YESIEUNG-SIOS \
    YESIEUNG-PANSIOS PHIEUPH-PIEUP KAPYEOUNPHIEUPH HIEUH-NIEUN HIEUH-RIEUL HIEUH-MIEUM \
    HIEUH-PIEUP YEORINHIEUH";

/// HANGUL CHOSEONG, from 115A: five old initials that Unicode 5.2 added.
pub const ADDED_INITIALS: &str = "KIYEOK-TIKEUT NIEUN-SIOS NIEUN-CIEUC NIEUN-HIEUH TIKEUT-RIEUL";

/// HANGUL JUNGSEONG, from 11A3: five old peaks likewise.
pub const ADDED_PEAKS: &str = "A-EU YA-U YEO-YA O-YA O-YAE";

/// HANGUL JONGSEONG, from 11FA: six old finals likewise.
pub const ADDED_FINALS: &str = "KIYEOK-NIEUN KIYEOK-PIEUP KIYEOK-CHIEUCH KIYEOK-KHIEUKH \
    KIYEOK-HIEUH SSANGNIEUN";

/// HANGUL CHOSEONG, from A960: 29 old initials likewise.
pub const EXTENDED_INITIALS: &str = "TIKEUT-MIEUM TIKEUT-PIEUP TIKEUT-SIOS TIKEUT-CIEUC \
    RIEUL-KIYEOK RIEUL-SSANGKIYEOK RIEUL-TIKEUT RIEUL-SSANGTIKEUT RIEUL-MIEUM RIEUL-PIEUP \
    RIEUL-SSANGPIEUP RIEUL-KAPYEOUNPIEUP RIEUL-SIOS RIEUL-CIEUC RIEUL-KHIEUKH MIEUM-KIYEOK \
    MIEUM-TIKEUT MIEUM-SIOS PIEUP-SIOS-THIEUTH PIEUP-KHIEUKH PIEUP-HIEUH SSANGSIOS-PIEUP \
    IEUNG-RIEUL IEUNG-HIEUH SSANGCIEUC-HIEUH SSANGTHIEUTH PHIEUPH-HIEUH HIEUH-SIOS \
    SSANGYEORINHIEUH";

/// HANGUL JUNGSEONG, from D7B0: 23 old peaks likewise.
pub const EXTENDED_PEAKS: &str = "O-YEO O-O-I YO-A YO-AE YO-EO U-YEO U-I-I YU-AE YU-O EU-A EU-EO \
    EU-E EU-O I-YA-O I-YAE I-YEO I-YE I-O-I I-YO I-YU I-I ARAEA-A ARAEA-E";

/// HANGUL JONGSEONG, from D7CB: 49 old finals likewise.
pub const EXTENDED_FINALS: &str = "NIEUN-RIEUL NIEUN-CHIEUCH SSANGTIKEUT SSANGTIKEUT-PIEUP \
    TIKEUT-PIEUP TIKEUT-SIOS TIKEUT-SIOS-KIYEOK TIKEUT-CIEUC TIKEUT-CHIEUCH TIKEUT-THIEUTH \
    RIEUL-SSANGKIYEOK RIEUL-KIYEOK-HIEUH SSANGRIEUL-KHIEUKH RIEUL-MIEUM-HIEUH \
    RIEUL-PIEUP-TIKEUT RIEUL-PIEUP-PHIEUPH RIEUL-YESIEUNG RIEUL-YEORINHIEUH-HIEUH \
    KAPYEOUNRIEUL MIEUM-NIEUN MIEUM-SSANGNIEUN SSANGMIEUM MIEUM-PIEUP-SIOS MIEUM-CIEUC \
    PIEUP-TIKEUT PIEUP-RIEUL-PHIEUPH PIEUP-MIEUM SSANGPIEUP PIEUP-SIOS-TIKEUT PIEUP-CIEUC \
    PIEUP-CHIEUCH SIOS-MIEUM SIOS-KAPYEOUNPIEUP SSANGSIOS-KIYEOK SSANGSIOS-TIKEUT SIOS-PANSIOS \
    SIOS-CIEUC SIOS-CHIEUCH SIOS-THIEUTH SIOS-HIEUH PANSIOS-PIEUP PANSIOS-KAPYEOUNPIEUP \
    YESIEUNG-MIEUM YESIEUNG-HIEUH CIEUC-PIEUP CIEUC-SSANGPIEUP SSANGCIEUC PHIEUPH-SIOS \
    PHIEUPH-THIEUTH";

/// Names that follow each other, with the code of the first.
type Listed = (u32, &'static str);

/// All names of each place: initials, peaks, finals.
pub const PLACES: [[Listed; 3]; 3] = [
    [
        (0x1100, INITIALS),
        (0x115A, ADDED_INITIALS),
        (0xA960, EXTENDED_INITIALS),
    ],
    [
        (0x1161, PEAKS),
        (0x11A3, ADDED_PEAKS),
        (0xD7B0, EXTENDED_PEAKS),
    ],
    [
        (0x11A8, FINALS),
        (0x11FA, ADDED_FINALS),
        (0xD7CB, EXTENDED_FINALS),
    ],
];

/// Names of peaks that do not spell their letters, and these.
const VOWELS: [(&str, &str); 11] = [
    ("AE", "A I"),
    ("YAE", "YA I"),
    ("E", "EO I"),
    ("YE", "YEO I"),
    ("WA", "O A"),
    ("WAE", "O A I"),
    ("OE", "O I"),
    ("WEO", "U EO"),
    ("WE", "U EO I"),
    ("WI", "U I"),
    ("YI", "EU I"),
];

/// Words that stay with each letter of a part, since they make another letter of it.
const STAYING: [&str; 2] = ["CHITUEUM", "CEONGCHIEUM"];

/// The letters of a part of a name between hyphens; `staying` goes before each.
fn spelled_part(part: &str, staying: &str) -> Vec<String> {
    if let Some(lighter) = part.strip_prefix("KAPYEOUN") {
        let mut letters = spelled_part(lighter, staying);
        letters.push("IEUNG".to_string());
        return letters;
    }
    for word in STAYING {
        if let Some(rest) = part.strip_prefix(word) {
            return spelled_part(rest, word);
        }
    }
    if let Some(twice) = part.strip_prefix("SSANG") {
        return [spelled_part(twice, staying), spelled_part(twice, staying)].concat();
    }
    match VOWELS.iter().find(|(name, _)| *name == part) {
        Some((_, letters)) => letters.split(' ').map(str::to_string).collect(),
        None => vec![format!("{staying}{part}")],
    }
}

/// The letters of a name, one after the other.
pub fn spelled(name: &str) -> Vec<String> {
    let parts = name.split('-');
    parts.flat_map(|part| spelled_part(part, "")).collect()
}

/// Where a name stands in a list of names.
pub fn place_in(names: &str, name: &str) -> Option<u32> {
    let mut places = (0..).zip(names.split(' '));
    places
        .find(|(_, listed)| *listed == name)
        .map(|(place, _)| place)
}

/// The name of a code among those of a place.
fn name_of(code: u32, place: &[Listed]) -> Option<&'static str> {
    place.iter().find_map(|&(first, names)| {
        let index = code.checked_sub(first)?;
        names.split(' ').nth(index as usize)
    })
}

/// The code of a name among those of a place.
fn code_of(name: &str, place: &[Listed]) -> Option<u32> {
    let mut lists = place.iter();
    lists.find_map(|&(first, names)| place_in(names, name).map(|index| first + index))
}

/// The letters that the name of a code spells, or the code itself where it has none of the names.
fn letters_of(code: u32) -> Vec<u32> {
    for place in PLACES {
        if let Some(name) = name_of(code, &place) {
            let codes = spelled(name)
                .into_iter()
                .map(|letter| code_of(&letter, &place));
            return codes
                .map(|code| code.expect("each letter has a name of its own"))
                .collect();
        }
    }
    vec![code]
}

/// A table: a row of three numbers for each code from the first to the last, with 0 after the
/// letters.
pub fn rows(first: u32, last: u32) -> Vec<[u32; 3]> {
    let row = |code| {
        let mut row = [0; 3];
        let letters = letters_of(code);
        row[..letters.len()].copy_from_slice(&letters);
        row
    };
    (first..=last).map(row).collect()
}
