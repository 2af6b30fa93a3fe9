//! `tickbound install PREFIX`: the command, the library for C, the documents and the man page under a prefix.
use crate::arguments::{self, path_of, shown, Options};
use crate::failure::{wrong_call, Failure};
use crate::{output, place};
use std::fs;
use std::io;
use std::os::unix::fs::PermissionsExt;
use std::path::{Path, PathBuf};

const PKG_CONFIG: &str = "\
prefix=${pcfiledir}/../..
includedir=${prefix}/include
libdir=${prefix}/lib

Name: tickbound
Description: verified bounds of OCaml bytecode routines
Version: VERSION
Cflags: -I${includedir}
Libs: -L${libdir} -ltickbound
";

pub fn command(arguments: &[String]) -> Result<u8, Failure> {
    let given = arguments::read("install", arguments, &Options { flags: &[], valued: &[] })?;
    let [prefix] = given.words.as_slice() else {
        return Err(wrong_call("install", "give one PREFIX, the folder to install into"));
    };
    if prefix.is_empty() {
        return Err(wrong_call("install", "PREFIX is empty; name the folder to install into"));
    }
    if cfg!(feature = "programs") {
        return Err(Failure("this build is for the first use and has no library; call ./tickbound install".into()));
    }
    let Some(root) = place::repository() else {
        return Err(Failure("this copy is installed already; install from the repository".into()));
    };
    let install = Install { root, prefix: path_of(prefix) };
    install.all().map_err(|what| Failure(format!("cannot install into {}: {what}", shown(prefix))))?;
    install.tell_of_version_1();
    Ok(0)
}

struct Install {
    root: PathBuf,
    prefix: PathBuf,
}

impl Install {
    fn all(&self) -> Result<(), String> {
        let library = self.root.join("target/staticlib/libc_interface.a");
        let header = self.root.join("include/tickbound.h");
        let manual = self.root.join("cli/tickbound.1");
        let itself = std::env::current_exe().map_err(|error| error.to_string())?;
        let settings = PKG_CONFIG.replace("VERSION", env!("CARGO_PKG_VERSION"));
        self.copy(&library, "lib/libtickbound.a", 0o644)?;
        self.copy(&header, "include/tickbound.h", 0o644)?;
        self.write(settings.as_bytes(), "lib/pkgconfig/tickbound.pc", 0o644)?;
        self.copy(&manual, "share/man/man1/tickbound.1", 0o644)?;
        for name in place::DOCUMENTS {
            self.copy(&self.root.join("docs").join(name), &format!("share/doc/tickbound/{name}"), 0o644)?;
        }
        self.copy_folder(&self.root.join("examples"), "share/doc/tickbound/examples")?;
        self.copy(&itself, "bin/tickbound", 0o755)
    }

    /// The files of a folder and of the folders in it.
    fn copy_folder(&self, from: &Path, to: &str) -> Result<(), String> {
        let failed = |error: io::Error| format!("{} cannot be read: {error}", from.display());
        for entry in fs::read_dir(from).map_err(failed)? {
            let entry = entry.map_err(failed)?;
            let name = format!("{to}/{}", entry.file_name().to_string_lossy());
            match entry.file_type().map_err(failed)?.is_dir() {
                true => self.copy_folder(&entry.path(), &name)?,
                false => self.copy(&entry.path(), &name, 0o644)?,
            }
        }
        Ok(())
    }

    fn copy(&self, from: &Path, to: &str, mode: u32) -> Result<(), String> {
        let bytes = fs::read(from).map_err(|error| format!("{} cannot be read: {error}", from.display()))?;
        self.write(&bytes, to, mode)
    }

    /// Writes a file beside its place and then gives it its name, so that no one sees half of it.
    fn write(&self, bytes: &[u8], to: &str, mode: u32) -> Result<(), String> {
        let path = self.prefix.join(to);
        let hidden = path.with_file_name(format!(".tickbound-{}", std::process::id()));
        let written = || {
            fs::create_dir_all(path.parent().unwrap_or(&self.prefix))?;
            fs::write(&hidden, bytes)?;
            fs::set_permissions(&hidden, fs::Permissions::from_mode(mode))?;
            fs::rename(&hidden, &path)
        };
        written().map_err(|error: io::Error| {
            let _ = fs::remove_file(&hidden);
            format!("{} cannot be written: {error}", path.display())
        })
    }

    /// Version 1 kept its programs in a folder that is not used any more.
    fn tell_of_version_1(&self) {
        let former = self.prefix.join("libexec/tickbound");
        if former.is_dir() {
            output::say(&format!(
                "tickbound: {} is of version 1 and is not used any more; it may be removed",
                former.display()
            ));
        }
    }
}
