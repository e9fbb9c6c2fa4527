"""Two headless browsers with the same calls: Chromium by chromedriver, Firefox by Marionette. Only the standard library is needed.

Debian's packages: chromium, chromium-driver, firefox-esr.
"""
import base64, json, os, pathlib, shutil, socket, subprocess, tempfile, time, urllib.request

PATIENCE = 180
LATER = 'const done = arguments[arguments.length - 1]; (async () => { %s })().then(done, error => done(String(error)));'


def free_port():
    with socket.socket() as place:
        place.bind(('127.0.0.1', 0))
        return place.getsockname()[1]


def until(made, what):
    """Asks again until there is an answer."""
    end = time.monotonic() + PATIENCE
    while time.monotonic() < end:
        try:
            return made()
        except OSError:
            time.sleep(0.3)
    raise TimeoutError(what)


POINTER = {'type': 'pointer', 'id': 'mouse', 'parameters': {'pointerType': 'mouse'}}


def click_on(element):
    """A click into the middle of an element, as WebDriver says it."""
    moved = {'type': 'pointerMove', 'duration': 0, 'x': 0, 'y': 0, 'origin': element}
    return {'actions': [{**POINTER, 'actions': [moved, {'type': 'pointerDown', 'button': 0}, {'type': 'pointerUp', 'button': 0}]}]}


class Browser:
    """What both can do. A script is the body of a function; its value comes back as JSON has it."""

    def open(self, address):
        self.go('about:blank')
        self.go(address)
        self.wait("return document.documentElement.dataset.ready === 'yes' || document.getElementById('loading')?.className === 'is-error'")

    def wait(self, script, patience=PATIENCE):
        end = time.monotonic() + patience
        while time.monotonic() < end:
            if self.run(script):
                return
            time.sleep(0.1)
        raise TimeoutError(script)

    def __enter__(self):
        return self

    def __exit__(self, *_):
        self.close()


class Chromium(Browser):
    name = 'Chromium'

    def __init__(self):
        port = free_port()
        self.room = tempfile.mkdtemp()
        log = open(os.path.join(self.room, 'log'), 'w')
        self.driver = subprocess.Popen(['chromedriver', f'--port={port}'], stdout=log, stderr=log)
        self.top = f'http://127.0.0.1:{port}'
        until(lambda: self.ask('GET', '/status'), 'chromedriver')
        words = ['--headless=new', '--no-sandbox', '--disable-gpu', '--hide-scrollbars', f'--user-data-dir={self.room}/profile']
        options = {'capabilities': {'alwaysMatch': {'goog:chromeOptions': {'binary': shutil.which('chromium'), 'args': words}, 'goog:loggingPrefs': {'browser': 'ALL'}}}}
        self.session = f"/session/{self.ask('POST', '/session', options)['sessionId']}"
        self.ask('POST', f'{self.session}/timeouts', {'script': PATIENCE * 1000, 'pageLoad': PATIENCE * 1000})

    def ask(self, method, path, body=None):
        data = None if body is None else json.dumps(body).encode()
        request = urllib.request.Request(self.top + path, data, {'Content-Type': 'application/json'}, method=method)
        try:
            return json.load(urllib.request.urlopen(request, timeout=PATIENCE))['value']
        except urllib.error.HTTPError as error:
            raise RuntimeError(json.load(error)['value']['message']) from None

    def command(self, name, **words):
        return self.ask('POST', f'{self.session}/goog/cdp/execute', {'cmd': name, 'params': words})

    def go(self, address):
        self.ask('POST', f'{self.session}/url', {'url': address})

    def run(self, script):
        return self.ask('POST', f'{self.session}/execute/sync', {'script': script, 'args': []})

    def later(self, script):
        """As run, for the body of an asynchronous function."""
        return self.ask('POST', f'{self.session}/execute/async', {'script': LATER % script, 'args': []})

    def size(self, width, height):
        self.command('Emulation.setDeviceMetricsOverride', width=width, height=height, deviceScaleFactor=1, mobile=False)

    def scheme(self, name):
        self.command('Emulation.setEmulatedMedia', features=[{'name': 'prefers-color-scheme', 'value': name}])

    def key(self, key):
        self.ask('POST', f'{self.session}/actions', {'actions': [{'type': 'key', 'id': 'keys', 'actions': [{'type': 'keyDown', 'value': key}, {'type': 'keyUp', 'value': key}]}]})

    def click(self, selector):
        found = self.ask('POST', f'{self.session}/element', {'using': 'css selector', 'value': selector})
        self.ask('POST', f'{self.session}/actions', click_on(found))

    def screenshot(self, path):
        pathlib.Path(path).write_bytes(base64.b64decode(self.ask('GET', f'{self.session}/screenshot')))

    def errors(self):
        """What the page said to its console as errors since the last call."""
        said = self.ask('POST', f'{self.session}/se/log', {'type': 'browser'})
        return [it['message'] for it in said if it['level'] == 'SEVERE']

    def close(self):
        try:
            self.ask('DELETE', self.session)
        finally:
            self.driver.terminate()
            self.driver.wait()
            shutil.rmtree(self.room, ignore_errors=True)


PREFERENCES = {
    'browser.shell.checkDefaultBrowser': False,
    'browser.startup.page': 0,
    'datareporting.policy.dataSubmissionEnabled': False,
    'app.update.enabled': False,
    'toolkit.telemetry.enabled': False,
    'remote.prefs.recommended': True,
}


class Firefox(Browser):
    name = 'Firefox'

    def __init__(self):
        port = free_port()
        self.room = tempfile.mkdtemp()
        lines = [f'user_pref({json.dumps(name)}, {json.dumps(value)});' for name, value in {**PREFERENCES, 'marionette.port': port}.items()]
        pathlib.Path(self.room, 'user.js').write_text('\n'.join(lines))
        log = open(os.path.join(self.room, 'log'), 'w')
        words = ['firefox-esr', '--headless', '--marionette', '--remote-allow-system-access', '--no-remote', '--profile', self.room]
        self.program = subprocess.Popen(words, stdout=log, stderr=log, env={**os.environ, 'HOME': self.room})
        self.number, self.sized = 0, None
        self.line = until(lambda: socket.create_connection(('127.0.0.1', port), PATIENCE), 'firefox')
        self.read()
        self.ask('WebDriver:NewSession', {})
        self.ask('WebDriver:SetTimeouts', {'script': PATIENCE * 1000, 'pageLoad': PATIENCE * 1000})

    def read(self):
        length = b''
        while not length.endswith(b':'):
            length += self.some(1)
        body = b''
        while len(body) < int(length[:-1]):
            body += self.some(int(length[:-1]) - len(body))
        return json.loads(body)

    def some(self, length):
        got = self.line.recv(length)
        if not got:
            raise RuntimeError('firefox has ended')
        return got

    def ask(self, name, words):
        self.number += 1
        body = json.dumps([0, self.number, name, words]).encode()
        self.line.sendall(b'%d:%s' % (len(body), body))
        _, _, error, value = self.read()
        if error:
            raise RuntimeError(error['message'])
        return value

    def go(self, address):
        self.ask('WebDriver:Navigate', {'url': address})

    def run(self, script):
        return self.ask('WebDriver:ExecuteScript', {'script': script, 'args': []})['value']

    def later(self, script):
        return self.ask('WebDriver:ExecuteAsyncScript', {'script': LATER % script, 'args': []})['value']

    def size(self, width, height):
        """The place of the page in the window, which is no narrower than some 450 pixels, gets this size."""
        if (width, height) == self.sized:
            return
        self.sized = width, height
        self.ask('WebDriver:SetWindowRect', {'width': max(width + 40, 600), 'height': height + 200})
        self.in_window(f"const it = gBrowser.selectedBrowser.style; for (const [side, size] of [['width', {width}], ['height', {height}]]) for (const which of ['min-', 'max-', '']) it.setProperty(which + side, `${{size}}px`, 'important')")
        self.wait(f'return innerWidth === {width} && innerHeight === {height}')

    def scheme(self, name):
        self.in_window(f"Services.prefs.setIntPref('layout.css.prefers-color-scheme.content-override', {0 if name == 'dark' else 1})")

    def in_window(self, script):
        self.ask('Marionette:SetContext', {'value': 'chrome'})
        try:
            self.run(script)
        finally:
            self.ask('Marionette:SetContext', {'value': 'content'})

    def key(self, key):
        self.ask('WebDriver:PerformActions', {'actions': [{'type': 'key', 'id': 'keys', 'actions': [{'type': 'keyDown', 'value': key}, {'type': 'keyUp', 'value': key}]}]})

    def click(self, selector):
        found = self.ask('WebDriver:FindElement', {'using': 'css selector', 'value': selector})
        self.ask('WebDriver:PerformActions', click_on(found['value']))

    def screenshot(self, path):
        pathlib.Path(path).write_bytes(base64.b64decode(self.ask('WebDriver:TakeScreenshot', {'full': False, 'hash': False})['value']))

    def errors(self):
        return []

    def close(self):
        try:
            self.ask('Marionette:Quit', {'flags': ['eForceQuit']})
        finally:
            try:
                self.program.wait(30)
            except subprocess.TimeoutExpired:
                self.program.kill()
            shutil.rmtree(self.room, ignore_errors=True)
