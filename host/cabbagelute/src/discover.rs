//! Finds `.pc` files in directories. Ported from upstream's `discover.rs`; nothing of it is in the proved reader.

use std::collections::BTreeMap;
use std::env::VarError;
use std::error::Error;
use std::ffi::OsString;
use std::fmt;
use std::io::ErrorKind;
use std::path::{Path, PathBuf};

/// The `.pc` files in the directories that the environment names, by their names without `.pc`. Of two with the same name
/// the one in the earlier directory counts, and a directory that does not exist is passed over.
pub fn discover(env: &PkgConfigEnv) -> Result<BTreeMap<String, PathBuf>, DiscoverError> {
    let mut found = BTreeMap::new();
    for directory in search_path(env) {
        let entries = match std::fs::read_dir(directory) {
            Ok(entries) => entries,
            Err(error) if error.kind() == ErrorKind::NotFound => continue,
            Err(error) => return Err(DiscoverError::ListDir(directory.into(), error)),
        };
        for entry in entries {
            let entry = entry.map_err(|error| DiscoverError::ListDir(directory.into(), error))?;
            let file_type =
                entry.file_type().map_err(|error| DiscoverError::ReadMetadata(entry.path(), error))?;
            if !file_type.is_file() {
                continue;
            }
            let file_name = entry.file_name();
            let Some(name) = file_name.to_str() else {
                return Err(DiscoverError::NonUtf8FileName(file_name, directory.into()));
            };
            if let Some(library) = name.strip_suffix(".pc") {
                found.entry(library.to_owned()).or_insert_with(|| directory.join(name));
            }
        }
    }
    Ok(found)
}

fn search_path(env: &PkgConfigEnv) -> impl Iterator<Item = &Path> {
    [&env.pkg_config_path, &env.pkg_config_path_for_target]
        .into_iter()
        .flatten()
        .flat_map(|directories| directories.split(':'))
        .map(Path::new)
}

/// Where to look, as the environment says it: directories with `:` between them.
pub struct PkgConfigEnv {
    /// `PKG_CONFIG_PATH`, searched first.
    pub pkg_config_path: Option<String>,
    /// `PKG_CONFIG_PATH_FOR_TARGET`.
    pub pkg_config_path_for_target: Option<String>,
}

impl PkgConfigEnv {
    /// Reads both from this process's environment.
    pub fn from_env() -> Result<Self, DiscoverError> {
        let get = |name| match std::env::var(name) {
            Ok(value) => Ok(Some(value)),
            Err(VarError::NotPresent) => Ok(None),
            Err(VarError::NotUnicode(_)) => Err(DiscoverError::NotUtf8Env(name)),
        };
        Ok(Self {
            pkg_config_path: get("PKG_CONFIG_PATH")?,
            pkg_config_path_for_target: get("PKG_CONFIG_PATH_FOR_TARGET")?,
        })
    }
}

/// Why the files could not be found.
#[derive(Debug)]
pub enum DiscoverError {
    /// The environment variable of this name is not UTF-8.
    NotUtf8Env(&'static str),
    /// The directory could not be listed.
    ListDir(PathBuf, std::io::Error),
    /// What kind of file it is could not be found out.
    ReadMetadata(PathBuf, std::io::Error),
    /// A file's name, in this directory, is not UTF-8.
    NonUtf8FileName(OsString, PathBuf),
}

impl fmt::Display for DiscoverError {
    fn fmt(&self, f: &mut fmt::Formatter<'_>) -> fmt::Result {
        match self {
            DiscoverError::NotUtf8Env(name) => write!(f, "environment variable {name} is not UTF-8"),
            DiscoverError::ListDir(path, _) => write!(f, "failed to list directory {path:?}"),
            DiscoverError::ReadMetadata(path, _) => write!(f, "failed to read metadata of {path:?}"),
            DiscoverError::NonUtf8FileName(name, path) => {
                write!(f, "file name {name:?} in {path:?} is not UTF-8")
            }
        }
    }
}

impl Error for DiscoverError {
    fn source(&self) -> Option<&(dyn Error + 'static)> {
        match self {
            DiscoverError::ListDir(_, error) | DiscoverError::ReadMetadata(_, error) => Some(error),
            DiscoverError::NotUtf8Env(_) | DiscoverError::NonUtf8FileName(..) => None,
        }
    }
}
