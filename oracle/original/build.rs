//! Copies each of the original's files into the build folder and appends what accessors/ has for it, so that its private
//! functions and fields can be called. The files come from the folder $ANIMATO_SRC, else from ../shared/docs/src beside the
//! repository. One expression is another in the copy: the length, which document 02's L9 takes through f64. And `segment_at` stands there
//! a second time, with its target as its argument, which document 02's L14 names.

use std::path::{Path, PathBuf};
use std::{env, fs};

const FILES: [&str; 5] = ["math", "svg", "bezier", "poly", "morph"];

// the original's length, and document 02's: squares and sum in f64, the machine's f64 root, rounded to f32
const LENGTH: &str = "sqrt(dot(v, v))";
const WIDE_LENGTH: &str = "{
        let (x, y) = (f64::from(v[0]), f64::from(v[1]));
        libm::sqrt(x * x + y * y) as f32
    }";

// the original's pick of a segment; a second one is handed the target, and has all its other lines
const SEGMENT_AT: &str = "    fn segment_at(&self, t: f32) -> Option<(&PathSegment, f32)> {\n";
const SEGMENT_TOWARD: &str = "    fn segment_toward(&self, target: f32) -> Option<(&PathSegment, f32)> {\n";
const TARGET: &str = "        let target = self.length * math::clamp01(t);\n";

fn main() {
    let here = PathBuf::from(env::var("CARGO_MANIFEST_DIR").expect("cargo names the package's folder"));
    let out = PathBuf::from(env::var("OUT_DIR").expect("cargo names the build folder"));
    let sources = env::var_os("ANIMATO_SRC").map_or_else(|| here.join("../../../shared/docs/src"), PathBuf::from);
    println!("cargo:rerun-if-env-changed=ANIMATO_SRC");

    let mut root = String::new();
    for name in FILES {
        let mut text = read(&sources.join(format!("{name}.rs")));
        if name == "math" {
            assert_eq!(text.matches(LENGTH).count(), 1, "{LENGTH} stands in math.rs once");
            text = text.replace(LENGTH, WIDE_LENGTH);
        }
        if name == "poly" {
            assert_eq!(text.matches(SEGMENT_AT).count(), 1, "segment_at stands in poly.rs once");
            let from = text.find(SEGMENT_AT).expect("it was counted");
            let end = from + text[from..].find("\n    }\n").expect("it ends") + "\n    }\n".len();
            let own = &text[from..end];
            assert_eq!(own.matches(TARGET).count(), 1, "segment_at makes its target once");
            let toward = own.replace(SEGMENT_AT, SEGMENT_TOWARD).replace(TARGET, "");
            text.push_str(&format!("\nimpl CompoundPath {{\n{toward}}}\n"));
        }
        let accessors = here.join(format!("accessors/{name}.rs"));
        if accessors.is_file() {
            text.push('\n');
            text.push_str(&read(&accessors));
        }
        let copy = out.join(format!("{name}.rs"));
        fs::write(&copy, text).expect("the build folder takes a file");
        root.push_str(&format!("#[path = {copy:?}]\npub mod {name};\n"));
    }
    fs::write(out.join("root.rs"), root).expect("the build folder takes a file");
}

fn read(file: &Path) -> String {
    println!("cargo:rerun-if-changed={}", file.display());
    fs::read_to_string(file).unwrap_or_else(|error| panic!("{}: {error}", file.display()))
}
