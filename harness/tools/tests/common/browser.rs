//! A Chromium without a window, driven by messages over two pipes: pages loaded, clicked in and looked at.

use super::json::Json;
use std::fs::File;
use std::io::{BufRead, BufReader, Write};
use std::path::{Path, PathBuf};
use std::process::{Child, Command, Stdio};
use std::sync::mpsc::{channel, Receiver};
use std::time::{Duration, Instant};

/// How long a browser may take to answer.
const PATIENCE: Duration = Duration::from_secs(30);

/// A browser with one page.
pub struct Browser {
    child: Child,
    folder: PathBuf,
    to: File,
    from: Receiver<String>,
    session: String,
    messages: u32,
}

/// The browser's program, if there is one on the PATH.
pub fn chromium() -> Option<PathBuf> {
    let path = std::env::var_os("PATH")?;
    let folders: Vec<PathBuf> = std::env::split_paths(&path).collect();
    let names = ["chromium", "chromium-browser", "google-chrome"];
    names.iter().flat_map(|name| folders.iter().map(move |folder| folder.join(name))).find(|file| file.is_file())
}

/// The messages that the browser writes, each ended by a zero byte.
fn listen(from: File) -> Receiver<String> {
    let (sender, receiver) = channel();
    std::thread::spawn(move || {
        for message in BufReader::new(from).split(0) {
            let Ok(message) = message else { return };
            if sender.send(String::from_utf8_lossy(&message).into_owned()).is_err() {
                return;
            }
        }
    });
    receiver
}

/// A text as a string of JSON.
fn quoted(text: &str) -> String {
    let escaped = text.replace('\\', "\\\\").replace('"', "\\\"").replace('\n', "\\n");
    format!("\"{escaped}\"")
}

impl Browser {
    /// Starts the browser with an empty page; what that throws later is kept.
    pub fn start(program: &Path) -> Browser {
        let folder = std::env::temp_dir().join(format!("page-browser-{}", std::process::id()));
        std::fs::create_dir_all(&folder).expect("a folder");
        let [input, output] = ["in", "out"].map(|name| folder.join(name));
        let made = Command::new("mkfifo").args([&input, &output]).status().expect("mkfifo");
        assert!(made.success(), "two pipes");
        let options =
            "--headless --no-sandbox --disable-gpu --no-first-run --remote-debugging-pipe --window-size=1200,900";
        let line = format!("exec \"$0\" {options} --user-data-dir=\"$1\" about:blank 3<\"$2\" 4>\"$3\"");
        let mut command = Command::new("sh");
        command.arg("-c").arg(line).args([program, &folder.join("profile"), &input, &output]);
        let child = command.stdin(Stdio::null()).stdout(Stdio::null()).stderr(Stdio::null()).spawn().expect("a shell");
        // The shell opens the first for reading, then the second for writing: each waits for its other end.
        let to = File::options().write(true).open(&input).expect("the browser's input");
        let from = listen(File::open(&output).expect("the browser's output"));
        let mut browser = Browser { child, folder, to, from, session: String::new(), messages: 0 };
        let page = browser.ask("Target.createTarget", "\"url\":\"about:blank\"");
        let target = format!("\"targetId\":{},\"flatten\":true", quoted(page.field("targetId").text()));
        browser.session = browser.ask("Target.attachToTarget", &target).field("sessionId").text().into();
        let keep = "window.faults = []; addEventListener('error', (event) => faults.push(event.message));";
        browser.ask("Page.enable", "");
        browser.ask("Page.addScriptToEvaluateOnNewDocument", &format!("\"source\":{}", quoted(keep)));
        browser
    }

    /// Sends a message and waits for its answer.
    fn ask(&mut self, method: &str, parameters: &str) -> Json {
        self.messages += 1;
        let session =
            if self.session.is_empty() { String::new() } else { format!(",\"sessionId\":{}", quoted(&self.session)) };
        let id = self.messages;
        let message = format!("{{\"id\":{id},\"method\":\"{method}\",\"params\":{{{parameters}}}{session}}}\0");
        self.to.write_all(message.as_bytes()).expect("the browser reads");
        let until = Instant::now() + PATIENCE;
        loop {
            let left = until.saturating_duration_since(Instant::now());
            let answer = self.from.recv_timeout(left).unwrap_or_else(|_| panic!("no answer to {method}"));
            let answer = Json::read(&answer);
            if *answer.field("id") == Json::Number(f64::from(id)) {
                assert_eq!(answer.field("error"), &Json::Nothing, "{method}");
                return answer.field("result").clone();
            }
        }
    }

    /// Loads a page and waits until it stands.
    pub fn load(&mut self, page: &Path) {
        self.ask("Page.navigate", "\"url\":\"about:blank\"");
        let address = format!("file://{}", page.display());
        self.ask("Page.navigate", &format!("\"url\":{}", quoted(&address)));
        let until = Instant::now() + PATIENCE;
        while self.look("document.readyState + location.protocol") != Json::Text("completefile:".into()) {
            assert!(Instant::now() < until, "the page does not load");
            std::thread::sleep(Duration::from_millis(20));
        }
    }

    /// The value of an expression in the page.
    pub fn look(&mut self, expression: &str) -> Json {
        let parameters = format!("\"expression\":{},\"returnByValue\":true", quoted(expression));
        let answer = self.ask("Runtime.evaluate", &parameters);
        assert_eq!(answer.field("exceptionDetails"), &Json::Nothing, "{expression}");
        answer.field("result").field("value").clone()
    }

    /// Gives the page another width and height.
    pub fn resize(&mut self, width: u32, height: u32) {
        let size = format!("\"width\":{width},\"height\":{height},\"deviceScaleFactor\":1,\"mobile\":false");
        self.ask("Emulation.setDeviceMetricsOverride", &size);
    }

    /// Clicks in an element, so far across it from 0 to 1, and in its middle from above.
    pub fn click_at(&mut self, element: &str, across: f64) {
        let found = format!("document.querySelector({})", quoted(element).replace('"', "'"));
        self.look(&format!("{found}.scrollIntoView({{block: 'center'}})"));
        let at = format!(
            "(() => {{ const box = {found}.getBoundingClientRect();
            return [Math.round(box.left + {across} * box.width), Math.round(box.top + box.height / 2)]; }})()"
        );
        let at = self.look(&at).numbers();
        for (kind, buttons) in [("mousePressed", 1), ("mouseReleased", 0)] {
            let place = format!("\"type\":\"{kind}\",\"x\":{},\"y\":{}", at[0], at[1]);
            let button = format!("\"button\":\"left\",\"buttons\":{buttons},\"clickCount\":1");
            self.ask("Input.dispatchMouseEvent", &format!("{place},{button}"));
        }
    }

    /// Clicks in the middle of an element.
    pub fn click(&mut self, element: &str) {
        self.click_at(element, 0.5);
    }

    /// Presses a key and lets it go.
    pub fn press(&mut self, key: &str, number: u32) {
        for kind in ["rawKeyDown", "keyUp"] {
            let names = format!("\"type\":\"{kind}\",\"key\":\"{key}\",\"code\":\"{key}\"");
            self.ask("Input.dispatchKeyEvent", &format!("{names},\"windowsVirtualKeyCode\":{number}"));
        }
    }
}

impl Drop for Browser {
    /// Has the browser end, or ends it, and removes what it has written.
    fn drop(&mut self) {
        let _ = self.to.write_all(b"{\"id\":0,\"method\":\"Browser.close\",\"params\":{}}\0");
        let until = Instant::now() + Duration::from_secs(5);
        while Instant::now() < until && matches!(self.child.try_wait(), Ok(None)) {
            std::thread::sleep(Duration::from_millis(20));
        }
        let _ = self.child.kill();
        let _ = self.child.wait();
        let _ = std::fs::remove_dir_all(&self.folder);
    }
}
