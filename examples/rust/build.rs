//! Links the proved library, `libiommufd_c.a`, and the C functions that it stands on, `liblibc_c.a` of the Rattle kit.
//! `DEFNULK_LIBRARIES` names their folders, parted by colons.

const WORD: &str = "DEFNULK_LIBRARIES";

fn main() -> Result<(), String> {
    println!("cargo:rerun-if-env-changed={WORD}");
    let folders = std::env::var_os(WORD).ok_or_else(|| format!("{WORD} names no folders of libraries (README.md)"))?;
    for folder in std::env::split_paths(&folders) {
        println!("cargo:rustc-link-search=native={}", folder.display());
        println!("cargo:rerun-if-changed={}", folder.display());
    }
    println!("cargo:rustc-link-lib=static=iommufd_c");
    println!("cargo:rustc-link-lib=static=libc_c");
    Ok(())
}
