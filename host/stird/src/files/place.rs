//! Where a file is: a name may begin with the folder of the service's credentials.
use std::borrow::Cow;
use std::env;
use std::ffi::OsStr;
use std::path::Path;

/// The variable that names the folder in which systemd keeps what `LoadCredential` names
/// (systemd.exec(5), "Credentials").
const FOLDER: &str = "CREDENTIALS_DIRECTORY";

/// What a name begins with that is looked for there.
const MARK: &str = "$CREDENTIALS_DIRECTORY";

/// Where the file of this name is. If there is no such folder, a name that begins with it leads to
/// nothing.
pub(super) fn place(name: &Path) -> Cow<'_, Path> {
    place_in(name, env::var_os(FOLDER).as_deref())
}

fn place_in<'a>(name: &'a Path, folder: Option<&OsStr>) -> Cow<'a, Path> {
    match (name.strip_prefix(MARK), folder) {
        (Ok(rest), Some(folder)) => Path::new(folder).join(rest).into(),
        _ => name.into(),
    }
}

#[cfg(test)]
mod tests {
    use super::*;

    #[test]
    fn a_name_may_begin_with_the_folder_of_credentials() {
        let folder = Some(OsStr::new("/run/credentials/stird.service"));
        for (name, folder, wanted) in [
            ("$CREDENTIALS_DIRECTORY/key", folder, "/run/credentials/stird.service/key"),
            ("$CREDENTIALS_DIRECTORY/key", None, "$CREDENTIALS_DIRECTORY/key"),
            ("$CREDENTIALS_DIRECTORY2/key", folder, "$CREDENTIALS_DIRECTORY2/key"),
            ("a/$CREDENTIALS_DIRECTORY/key", folder, "a/$CREDENTIALS_DIRECTORY/key"),
            ("/etc/stird/key", folder, "/etc/stird/key"),
            ("key", folder, "key"),
        ] {
            assert_eq!(place_in(name.as_ref(), folder), Path::new(wanted), "{name}");
        }
    }
}
