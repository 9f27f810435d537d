//! The page, drawn by Debian's chromium without a screen. Where it is not installed, the test says so and goes on.

use std::path::Path;
use std::process::Command;

/// Looks at the page once it is laid out, and writes what there is to see at its end.
const LOOK: &str = r#"<script>
const boxes = name => [...document.querySelectorAll(name)].map(e => e.getBoundingClientRect());
const meet = (a, b) => a.left < b.right - 1 && b.left < a.right - 1 && a.top < b.bottom - 1 && b.top < a.bottom - 1;
const texts = boxes('svg text');
const seen = [
  'catches ' + boxes('path.catch').filter(b => b.width > 100).length,
  'charts ' + boxes('svg').filter(b => b.width > 300 && b.height > 100).length,
  'rows ' + boxes('tr').filter(b => b.height > 20).length,
  'verdicts ' + boxes('.verdict').filter(b => b.height > 15).length,
  'words that meet ' + texts.filter((a, i) => texts.some((b, j) => i < j && meet(a, b))).length,
  'wider than the window ' + (document.documentElement.scrollWidth > innerWidth),
];
document.body.insertAdjacentHTML('beforeend', '<pre>' + seen.map(s => '(' + s + ')').join(' ') + '</pre>');
</script>"#;

/// What a page with six traps shows.
const SHOWN: [&str; 6] = [
    "(catches 6)",
    "(charts 2)",
    "(rows 7)",
    "(verdicts 1)",
    "(words that meet 0)",
    "(wider than the window false)",
];

/// The page in a window of a desk and in one of a telephone: everything is drawn, no words lie over others, and nothing runs out of the window.
pub fn draw(page: &Path) {
    if Command::new("chromium").arg("--version").output().is_err() {
        eprintln!("chromium is not installed: {} is not drawn", page.display());
        return;
    }
    let text = std::fs::read_to_string(page).expect("the page is written");
    let looked = page.with_extension("looked.html");
    std::fs::write(&looked, text.replace("</body>", &format!("{LOOK}</body>"))).expect("written");
    for window in ["1000,1500", "600,1500"] {
        let output = Command::new("timeout")
            .args([
                "120",
                "chromium",
                "--headless",
                "--no-sandbox",
                "--disable-gpu",
                "--dump-dom",
            ])
            .arg(format!("--window-size={window}"))
            .arg(format!("file://{}", looked.display()))
            .output()
            .expect("it runs");
        let drawn = String::from_utf8_lossy(&output.stdout);
        let told = drawn.lines().rev().find(|line| line.contains("<pre>"));
        for shown in SHOWN {
            assert!(drawn.contains(shown), "{window}: not {shown} but {told:?}");
        }
    }
}
