//! An arcade of 28 jewellers, whose safes one office serves: 256 contexts, and nearly as many pairs and properties as fit.

const SAFES: usize = 28;

/// The contexts of a safe, with their levels.
const PARTS: [(&str, u8); 9] = [
    ("clock", 2),
    ("opening", 2),
    ("codes", 2),
    ("bolt", 2),
    ("keypad", 1),
    ("panel", 1),
    ("alarm", 1),
    ("display", 0),
    ("log", 0),
];

/// The contexts that all safes share, with their levels and owners.
const SHARED: [(&str, u8, u8); 4] = [("office", 1, 0), ("maint", 2, 0), ("modem", 0, 0), ("night", 1, 15)];

/// Who does what to whom in a safe.
const WITHIN: [(&str, &str, &str); 25] = [
    ("clock", "opening", "read"),
    ("clock", "bolt", "signal lock unlock"),
    ("clock", "display", "write"),
    ("clock", "log", "append"),
    ("clock", "alarm", "signal"),
    ("bolt", "clock", "signal"),
    ("bolt", "alarm", "send"),
    ("bolt", "log", "append"),
    ("keypad", "codes", "stat"),
    ("keypad", "clock", "send"),
    ("keypad", "panel", "become"),
    ("keypad", "display", "write"),
    ("keypad", "log", "append"),
    ("panel", "codes", "update"),
    ("panel", "opening", "update"),
    ("panel", "clock", "stat"),
    ("panel", "bolt", "stat"),
    ("panel", "alarm", "receive"),
    ("panel", "display", "write"),
    ("panel", "log", "append"),
    ("alarm", "bolt", "stat"),
    ("alarm", "log", "append"),
    ("alarm", "display", "write"),
    ("display", "opening", "read"),
    ("display", "log", "read"),
];

/// What the shared contexts do to a safe, and it to them.
const ACROSS: [(&str, &str, &str); 10] = [
    ("office", "panel_", "read signal"),
    ("office", "log_", "read"),
    ("office", "alarm_", "receive"),
    ("maint", "panel_", "become"),
    ("maint", "clock_", "stat"),
    ("maint", "log_", "read"),
    ("night", "alarm_", "receive unlock"),
    ("night", "bolt_", "stat"),
    ("alarm_", "modem", "send"),
    ("modem", "log_", "read"),
];

pub fn text() -> String {
    let mut text = String::new();
    for safe in 1..=SAFES {
        let owner = safe % 15;
        text.extend(PARTS.iter().map(|(part, level)| format!("context {part}_{safe} {level} {owner}\n")));
    }
    text.extend(SHARED.iter().map(|(name, level, owner)| format!("context {name} {level} {owner}\n")));
    text += "constrain update lock\n";
    for safe in 1..=SAFES {
        text.extend(WITHIN.iter().map(|(s, t, does)| format!("vector {s}_{safe} {t}_{safe} {does}\n")));
        text.extend(ACROSS.iter().map(|(s, t, does)| format!("vector {} {} {does}\n", of(s, safe), of(t, safe))));
        // Each alarm is heard by the next safe's.
        text += &format!("vector alarm_{safe} alarm_{} send\n", safe % SAFES + 1);
    }
    text.extend((1..=SAFES).map(|safe| format!("grant {safe} maint,panel_{safe} opening_{safe},codes_{safe} write\n")));
    let of_all = |part: &str| (1..=SAFES).map(|safe| format!("{part}_{safe}")).collect::<Vec<_>>().join(",");
    let (clocks, bolts, logs, panels) = (of_all("clock"), of_all("bolt"), of_all("log"), of_all("panel"));
    text += &format!("grant 29 maint {clocks},{bolts} update execute\n");
    text += &format!("grant 30 office {panels} become send\n");
    text += &format!("grant 31 night,modem {logs} write\n");
    text += &format!("grant 32 {logs} {bolts} lock\n");
    for safe in 1..=SAFES / 2 {
        let properties = [
            format!("integrity modem,night,log_{safe} opening_{safe},codes_{safe}"),
            format!("confidentiality night,modem codes_{safe}"),
            format!("consistency night,office opening_{safe},bolt_{safe}"),
            format!("integrity keypad_{safe} bolt_{},opening_{}", safe + 1, safe + 1),
        ];
        let number = |index: usize| 4 * (safe - 1) + index + 1;
        let lines = properties.iter().enumerate().map(|(index, property)| format!("property {} {property}\n", number(index)));
        text.extend(lines);
    }
    text += &format!("property 57 domain {}\n", of_all("codes"));
    text += &format!("property 58 integrity {logs} {clocks},{bolts}\n");
    text += &format!("property 59 integrity {logs},modem,night {bolts}\n");
    text += &format!("property 60 confidentiality {logs} {clocks}\n");
    text += &format!("property 61 confidentiality {clocks} {}\n", of_all("display"));
    text += &format!("property 62 consistency {} {bolts}\n", of_all("alarm"));
    text += &format!("property 63 consistency {} {clocks}\n", of_all("display"));
    text += &format!("property 64 domain {clocks},{bolts},{panels},{logs}\n");
    text
}

/// A safe's part, where the name asks for one, or a shared context.
fn of(name: &str, safe: usize) -> String {
    if name.ends_with('_') {
        format!("{name}{safe}")
    } else {
        name.to_string()
    }
}
