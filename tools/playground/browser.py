"""A headless Chromium that is driven over a pipe, by the standard library alone."""

import base64
import json
import os
import select
import shutil
import subprocess
import tempfile
import time
from pathlib import Path

# With what the browser is called; it takes commands from the file 3, and answers on the file 4.
FLAGS = ('--headless', '--no-sandbox', '--disable-gpu', '--disable-dev-shm-usage', '--no-first-run',
         '--hide-scrollbars', '--remote-debugging-pipe')

# After how many seconds an answer, or what is waited for, counts as missing: many, for slow machines.
SECONDS = 900

# How long is waited between two looks, in seconds.
PAUSE = 0.03

# What the browser answers where a page is left while an expression is evaluated on it.
NAVIGATES = ('context was destroyed', 'context destroyed', 'target navigated', 'Cannot find context',
             'Cannot find default execution context')


class Failed(Exception):
    """What the browser did not do."""


def chromium() -> str:
    """The Chromium of this machine."""
    found = next((path for path in map(shutil.which, ('chromium', 'chromium-browser', 'google-chrome')) if path), None)
    if found is None:
        raise Failed('there is no Chromium here')
    return found


class Browser:
    """A browser with one page. What its console and its scripts tell as an error is in `errors`."""

    def __init__(self) -> None:
        self.errors: list[str] = []
        self.number, self.rest, self.session = 0, b'', ''
        self.room = tempfile.TemporaryDirectory(prefix='play-browser-', ignore_cleanup_errors=True)
        take, self.give = os.pipe()
        self.told, tell = os.pipe()
        words = [chromium(), *FLAGS, f'--user-data-dir={self.room.name}', 'about:blank']
        call = f'exec "$@" 3<&{take} 4>&{tell}'
        self.running = subprocess.Popen(['bash', '-c', call, 'bash', *words], pass_fds=(take, tell),
                                        stdin=subprocess.DEVNULL, stdout=subprocess.DEVNULL, stderr=subprocess.DEVNULL)
        os.close(take)
        os.close(tell)
        self.session = self.call('Target.attachToTarget', targetId=self.first_page(), flatten=True)['sessionId']
        for domain in ('Page', 'Runtime', 'Log'):
            self.call(f'{domain}.enable')

    def first_page(self) -> str:
        """The name of the first page, as soon as it is there."""
        end = time.monotonic() + SECONDS
        while True:
            for one in self.call('Target.getTargets')['targetInfos']:
                if one['type'] == 'page':
                    return one['targetId']
            if time.monotonic() > end:
                raise Failed('the browser has no page')
            time.sleep(PAUSE)

    def __enter__(self) -> 'Browser':
        return self

    def __exit__(self, *_) -> None:
        """Ends the browser."""
        try:
            self.call('Browser.close')
            self.running.wait(20)
        except (Failed, OSError, subprocess.TimeoutExpired):
            self.running.kill()
        self.room.cleanup()

    def message(self) -> dict:
        """The next thing that the browser tells."""
        end = time.monotonic() + SECONDS
        while b'\0' not in self.rest:
            if not select.select([self.told], [], [], max(0, end - time.monotonic()))[0]:
                raise Failed('the browser does not answer')
            got = os.read(self.told, 1 << 20)
            if not got:
                raise Failed('the browser has ended')
            self.rest += got
        one, self.rest = self.rest.split(b'\0', 1)
        return json.loads(one)

    def call(self, method: str, **words) -> dict:
        """The answer to a command."""
        self.number += 1
        asked = {'id': self.number, 'method': method, 'params': words}
        if self.session:
            asked['sessionId'] = self.session
        os.write(self.give, json.dumps(asked).encode() + b'\0')
        while True:
            got = self.message()
            if got.get('id') == self.number:
                if 'error' in got:
                    raise Failed(str(got['error']))
                return got['result']
            self.note(got)

    def note(self, told: dict) -> None:
        """Keeps what is told as an error."""
        what = told.get('params', {})
        if told.get('method') == 'Runtime.exceptionThrown':
            self.errors.append(json.dumps(what['exceptionDetails'])[:600])
        elif told.get('method') == 'Log.entryAdded' and what['entry']['level'] == 'error':
            self.errors.append(what['entry']['text'])
        elif told.get('method') == 'Runtime.consoleAPICalled' and what['type'] == 'error':
            self.errors.append(json.dumps(what['args'])[:600])

    def tell(self, code: str):
        """The value of an expression on the page."""
        got = self.call('Runtime.evaluate', expression=code, awaitPromise=True, returnByValue=True)
        if 'exceptionDetails' in got:
            raise Failed(f'{code[:200]}: {json.dumps(got["exceptionDetails"])[:600]}')
        return got['result'].get('value')

    def is_true(self, code: str) -> bool:
        """Whether an expression on the page is true; it is not while the page is being left for another one."""
        try:
            return bool(self.tell(code))
        except Failed as fault:
            if any(words in str(fault) for words in NAVIGATES):
                return False
            raise

    def until(self, code: str, seconds: float = SECONDS) -> None:
        """Waits until an expression on the page is true."""
        end = time.monotonic() + seconds
        while not self.is_true(code):
            if time.monotonic() > end:
                raise Failed(f'{code[:200]} did not come true; {self.errors[:3]}')
            time.sleep(PAUSE)

    def open(self, address: str) -> None:
        """Opens a page anew."""
        self.call('Page.navigate', url='about:blank')
        self.call('Page.navigate', url=address)

    def size(self, wide: int, high: int, dark: bool = False) -> None:
        """Gives the page a size, and prefers dark or light colours."""
        self.call('Emulation.setDeviceMetricsOverride', width=wide, height=high, deviceScaleFactor=1, mobile=False)
        scheme = {'name': 'prefers-color-scheme', 'value': 'dark' if dark else 'light'}
        self.call('Emulation.setEmulatedMedia', features=[scheme])

    def key(self, key: str, code: str = '', alt: bool = False) -> None:
        """Presses a key."""
        held = {'key': key, 'code': code or key, 'modifiers': int(alt)}
        text = '\r' if key == 'Enter' else key
        typed = {'text': text} if len(text) == 1 and not alt else {}
        self.call('Input.dispatchKeyEvent', type='keyDown' if typed else 'rawKeyDown', **held, **typed)
        self.call('Input.dispatchKeyEvent', type='keyUp', **held)

    def picture(self, path: Path) -> None:
        """Takes a picture of what is seen."""
        path.write_bytes(base64.b64decode(self.call('Page.captureScreenshot', format='png')['data']))
