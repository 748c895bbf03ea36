//! Where the crate `mdeh` finds the static library: a copy of the crate outside the repository is checked, documented
//! and built by cargo with the archive in each place, in none, and in a folder that does not have it.
use std::env;
use std::fs;
use std::path::{Path, PathBuf};
use std::process::{Command, Output};

/// The packages' folder in the repository.
const PACKAGE: &str = env!("CARGO_MANIFEST_DIR");

/// The variable that names the folder of the archive.
const VARIABLE: &str = "MDEH_LIB_DIR";

/// The archive that these tests are linked with.
fn archive() -> PathBuf {
    let folder = env::var_os(VARIABLE).filter(|folder| !folder.is_empty());
    let folder = folder.map_or_else(|| Path::new(PACKAGE).join("../target/staticlib"), PathBuf::from);
    folder.join("libmdeh.a")
}

/// A folder without content, whatever it had.
fn empty_folder(path: PathBuf) -> PathBuf {
    let _ = fs::remove_dir_all(&path);
    fs::create_dir_all(&path).expect("the folder can be made");
    path
}

/// Copies all files of a folder and of those in it.
fn copy_folder(from: &Path, to: &Path) {
    fs::create_dir_all(to).expect("the folder can be made");
    for entry in fs::read_dir(from).expect("the folder is there") {
        let path = entry.expect("its entries can be read").path();
        let copy = to.join(path.file_name().expect("an entry has a name"));
        match path.is_dir() {
            true => copy_folder(&path, &copy),
            false => drop(fs::copy(&path, &copy).expect("the file can be copied")),
        }
    }
}

/// A copy of the crate without an archive.
struct Copied {
    folder: PathBuf,
}

impl Copied {
    /// A copy in a folder of this name.
    fn new(name: &str) -> Copied {
        let folder = empty_folder(Path::new(env!("CARGO_TARGET_TMPDIR")).join("linking").join(name));
        let package = Path::new(PACKAGE).join("../embed/rust");
        for file in ["Cargo.toml", "Cargo.lock", "build.rs", "link.rs"] {
            fs::copy(package.join(file), folder.join(file)).expect("the file can be copied");
        }
        ["src", "examples"].iter().for_each(|part| copy_folder(&package.join(part), &folder.join(part)));
        Copied { folder }
    }

    /// What cargo does with these arguments, and with the variable, if any.
    fn cargo(&self, arguments: &[&str], variable: Option<&Path>) -> Output {
        let mut command = Command::new(env::var_os("CARGO").unwrap_or_else(|| "cargo".into()));
        command.args(arguments).args(["--offline", "--locked"]).current_dir(&self.folder);
        command.env("CARGO_TARGET_DIR", self.folder.join("target")).env_remove(VARIABLE);
        command.envs(variable.map(|folder| (VARIABLE, folder))).output().expect("cargo runs")
    }

    /// Asserts that cargo succeeds, or else that it fails, and says this.
    fn told(&self, arguments: &[&str], variable: Option<&Path>, success: bool, words: &str) {
        let output = self.cargo(arguments, variable);
        let told = String::from_utf8_lossy(&output.stderr);
        assert_eq!(output.status.success(), success, "{arguments:?}: {told}");
        assert!(told.contains(words), "{arguments:?} does not say {words:?}: {told}");
    }

    /// Asserts that an example is built and prints what is kept of it.
    fn runs(&self, variable: Option<&Path>) {
        let output = self.cargo(&["run", "--example", "gateway"], variable);
        assert!(output.status.success(), "{}", String::from_utf8_lossy(&output.stderr));
        assert_eq!(output.stdout, include_bytes!("../../embed/gateway.out"));
    }
}

#[test]
fn without_the_archive() {
    let copied = Copied::new("without");
    let warning = "libmdeh.a is missing, and what links will fail: run `make target/staticlib/libmdeh.a`";
    copied.told(&["check"], None, true, warning);
    copied.told(&["doc"], None, true, warning);
    assert!(copied.folder.join("target/doc/mdeh/index.html").is_file());
    copied.told(&["build"], None, false, "could not find native static library `mdeh`");
    // once it is there, it is found
    fs::copy(archive(), copied.folder.join("libmdeh.a")).expect("the archive can be copied");
    copied.runs(None);
}

#[test]
fn in_the_folder_that_the_variable_names() {
    let copied = Copied::new("named");
    let folder = empty_folder(copied.folder.join("lib"));
    // neither the crate's own folder nor the repository's is looked at
    fs::write(copied.folder.join("libmdeh.a"), "no archive").expect("the file can be written");
    let missing =
        format!("{} is missing, in the folder that MDEH_LIB_DIR names", folder.join("libmdeh.a").display());
    copied.told(&["check"], Some(&folder), false, &missing);
    copied.told(&["check"], Some(Path::new("lib")), false, &missing);
    fs::copy(archive(), folder.join("libmdeh.a")).expect("the archive can be copied");
    copied.runs(Some(&folder));
    copied.runs(Some(Path::new("lib")));
    // an archive that changes is linked anew
    fs::write(folder.join("libmdeh.a"), "no archive").expect("the file can be written");
    copied.told(&["build", "--example", "gateway"], Some(&folder), false, "libmdeh.a");
    // another name is another folder
    copied.told(&["check"], Some(&copied.folder.join("other")), false, "is missing, in the folder");
}

#[test]
fn in_the_repository() {
    let copied = Copied::new("repository/embed/rust");
    let written = empty_folder(copied.folder.join("../../target/staticlib"));
    fs::copy(archive(), written.join("libmdeh.a")).expect("the archive can be copied");
    copied.runs(None);
    // an empty name is none
    copied.runs(Some(Path::new("")));
}

#[test]
fn beside_the_crate_before_the_repository() {
    let copied = Copied::new("beside/embed/rust");
    let written = empty_folder(copied.folder.join("../../target/staticlib"));
    fs::write(written.join("libmdeh.a"), "no archive").expect("the file can be written");
    fs::copy(archive(), copied.folder.join("libmdeh.a")).expect("the archive can be copied");
    copied.runs(None);
}
