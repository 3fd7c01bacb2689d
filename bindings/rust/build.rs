//! Finds the static library: where ICU_LOCALE_FOLDER says, or in `lib` of a packed crate, or in out/c of the repository,
//! where `make c` leaves it. And CLDR's data: in `data` of a packed crate, or in out/data of the repository, where
//! tools/package-data leaves it.
use std::path::{Path, PathBuf};
use std::{env, fs};

const LIBRARY: &str = "libicu_locale.a";

fn main() {
    println!("cargo:rerun-if-env-changed=ICU_LOCALE_FOLDER");
    let target = ["CARGO_CFG_TARGET_OS", "CARGO_CFG_TARGET_ARCH"].map(|name| env::var(name).unwrap_or_default());
    if target != ["linux", "x86_64"] && env::var("ICU_LOCALE_FOLDER").is_err() {
        panic!("the library inside is for Linux on x86-64; ICU_LOCALE_FOLDER names a folder with one for {}", target.join(" "));
    }
    let here = PathBuf::from(env::var("CARGO_MANIFEST_DIR").expect("cargo names its folder"));
    let kept = [here.join("lib"), here.join("../../out/c")];
    let folder = env::var("ICU_LOCALE_FOLDER").map_or_else(
        |_| kept.iter().find(|folder| folder.join(LIBRARY).exists()).unwrap_or(&kept[1]).clone(),
        PathBuf::from,
    );
    let library = folder.join(LIBRARY);
    println!("cargo:rerun-if-changed={}", library.display());
    if !library.exists() {
        panic!("there is no {}; `make c` at the top of the repository makes it", library.display());
    }
    println!("cargo:rustc-link-search=native={}", folder.display());
    println!("cargo:rustc-link-lib=static=icu_locale");
    write_data(&[here.join("data"), here.join("../../out/data")]);
}

// Writes the list of the data's files, by the first folder that has them: a name, and the bytes. It is empty where none has.
fn write_data(folders: &[PathBuf]) {
    let folder = folders.iter().find(|folder| folder.join("base-and-supplement.gz").exists());
    let mut rows: Vec<String> = folder.into_iter().flat_map(|folder| files_of(folder)).map(|path| row_of(&path)).collect();
    rows.sort();
    let told = |name| folder.and_then(|folder| fs::read_to_string(folder.join(name)).ok());
    let (version, locales) = (told("version"), told("locales").unwrap_or_default());
    let (version, locales) = (version.as_deref().map(str::trim), locales.lines().collect::<Vec<_>>());
    let flat = folder.map(|folder| folder.join("names.flat")).filter(|path| path.exists());
    let flat = flat.map_or_else(|| String::from("&[]"), |path| included(&path));
    let text = format!(
        "/// The files.\npub const FILES: &[(&str, &[u8])] = &[{}];\n/// CLDR's version.\npub const VERSION: Option<&str> = {version:?};\n\
         /// The locales that there are names in, in the order of their texts.\npub const LOCALES: &[&str] = &{locales:?};\n\
         /// The names of all locales in the flat form.\npub static FLAT: &[u8] = {flat};\n",
        rows.concat()
    );
    let to = PathBuf::from(env::var("OUT_DIR").expect("cargo names a folder for it")).join("data.rs");
    fs::write(to, text).expect("the list of files is written");
}

fn files_of(folder: &Path) -> Vec<PathBuf> {
    println!("cargo:rerun-if-changed={}", folder.display());
    let entries = fs::read_dir(folder).expect("the folder of the data is read");
    let paths = entries.map(|entry| entry.expect("the folder of the data is read").path());
    paths.filter(|path| path.extension().is_some_and(|ending| ending == "gz")).collect()
}

fn row_of(path: &Path) -> String {
    let name = path.file_stem().unwrap_or_default().to_string_lossy().into_owned();
    format!("({name:?}, {}),\n", included(path))
}

fn included(path: &Path) -> String {
    format!("include_bytes!({:?})", path.to_str().expect("the path of the data is a text"))
}
