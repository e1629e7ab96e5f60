// Copies rubble's source, unmodified, beside the stand-ins for the files that are not at hand.
use std::path::{Path, PathBuf};
use std::{env, fs};

const RUBBLE: [&str; 16] = [
    "beacon.rs", "bytes.rs", "config.rs", "log.rs", "phy.rs", "time.rs", "utils.rs", "uuid.rs", "link/ad_structure.rs",
    "link/advertising.rs", "link/channel_map.rs", "link/comp_id.rs", "link/connection.rs", "link/device_address.rs",
    "link/filter.rs", "link/mod.rs",
];
const STANDINS: [&str; 8] = [
    "error.rs", "l2cap.rs", "link/data.rs", "link/features.rs", "link/llcp.rs", "link/queue.rs", "link/responder.rs",
    "link/seq_num.rs",
];
// log and utils hold macros that the others use.
const ROOT: [&str; 11] =
    ["log", "utils", "error", "bytes", "config", "l2cap", "link", "phy", "time", "uuid", "beacon"];

fn copy(from: &Path, to: &Path, file: &str) {
    let source = from.join(file);
    let target = to.join(file);
    let octets = fs::read(&source).unwrap_or_else(|e| panic!("{}: {}", source.display(), e));
    fs::write(&target, octets).unwrap_or_else(|e| panic!("{}: {}", target.display(), e));
    println!("cargo:rerun-if-changed={}", source.display());
}

fn main() {
    let here = PathBuf::from(env::var("CARGO_MANIFEST_DIR").unwrap());
    let out = PathBuf::from(env::var("OUT_DIR").unwrap());
    let src = PathBuf::from(env::var("RUBBLE_SRC").expect("RUBBLE_SRC names rubble's source: run compare/run"));
    println!("cargo:rerun-if-env-changed=RUBBLE_SRC");
    fs::create_dir_all(out.join("link")).unwrap();
    for file in RUBBLE {
        copy(&src, &out, file);
    }
    for file in STANDINS {
        copy(&here.join("standins"), &out, file);
    }
    let mut modules = String::new();
    for name in ROOT {
        let file = if name == "link" { "link/mod.rs".to_string() } else { format!("{name}.rs") };
        modules += &format!("#[macro_use]\n#[path = {:?}]\npub mod {name};\n", out.join(file));
    }
    fs::write(out.join("modules.rs"), modules).unwrap();
}
