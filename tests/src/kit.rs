//! The toolchain that `rt` belongs to.

use std::path::{Path, PathBuf};
use std::process::Command;

/// Its top: what `rt doc` names stands there.
pub fn top() -> Result<PathBuf, String> {
    let output = Command::new("rt").arg("doc").output();
    let output = output.map_err(|error| format!("rt cannot be run: {error}"))?;
    let guide = String::from_utf8_lossy(&output.stdout).trim().to_string();
    let top = Path::new(&guide).parent().filter(|top| top.join("bin/rattle").is_file());
    top.map(Path::to_path_buf).ok_or(format!("no toolchain around {guide}"))
}
