"""A headless Chromium, which is spoken to by the DevTools protocol over two pipes."""
import base64
import json
import os
import select
import shutil
import subprocess
import tempfile
import time

from wire import Wrong

# A browser on a busy machine takes its time.
PATIENCE = 60


class Browser:
    def __init__(self):
        self.folder, self.number, self.left, self.events = tempfile.mkdtemp(), 0, b'', []
        reads, self.write = os.pipe()
        self.read, writes = os.pipe()

        def to_three_and_four():
            # Away first from the numbers that they are to have.
            os.dup2(reads, 98)
            os.dup2(writes, 99)
            os.dup2(98, 3)
            os.dup2(99, 4)
        self.process = subprocess.Popen(
            ['chromium', '--headless', '--no-sandbox', '--disable-gpu', '--disable-dev-shm-usage', '--no-first-run',
             '--disable-background-networking', '--disable-component-update', '--disable-sync', '--hide-scrollbars',
             '--ignore-certificate-errors', '--remote-debugging-pipe', '--user-data-dir=' + self.folder, 'about:blank'],
            stdin=subprocess.DEVNULL, stdout=subprocess.DEVNULL, stderr=subprocess.DEVNULL, pass_fds=(3, 4),
            preexec_fn=to_three_and_four)
        os.close(reads)
        os.close(writes)

    def __enter__(self):
        return self

    def __exit__(self, *_):
        self.process.terminate()
        try:
            self.process.wait(timeout=10)
        except subprocess.TimeoutExpired:
            self.process.kill()
            self.process.wait()
        os.close(self.read)
        os.close(self.write)
        shutil.rmtree(self.folder, ignore_errors=True)

    def message(self):
        """The next message of the browser."""
        until = time.monotonic() + PATIENCE
        while b'\0' not in self.left:
            if not select.select([self.read], [], [], max(0, until - time.monotonic()))[0]:
                raise Wrong('the browser says nothing')
            data = os.read(self.read, 1 << 20)
            if not data:
                raise Wrong('the browser has ended with %s' % self.process.poll())
            self.left += data
        text, _, self.left = self.left.partition(b'\0')
        return json.loads(text)

    def call(self, method, session=None, **words):
        self.number += 1
        order = {'id': self.number, 'method': method, 'params': words}
        if session:
            order['sessionId'] = session
        data = json.dumps(order).encode() + b'\0'
        while data:
            data = data[os.write(self.write, data):]
        while True:
            said = self.message()
            if said.get('id') == self.number:
                if 'error' in said:
                    raise Wrong('%s: %s' % (method, said['error']))
                return said['result']
            self.events.append(said)


class Tab:
    """A tab of it, of a width and a scheme of colours, with scripts or without."""

    def __init__(self, browser, width=1280, height=900, scheme='light', scripts=True):
        self.browser, self.width, self.height = browser, width, height
        target = browser.call('Target.createTarget', url='about:blank')['targetId']
        self.session = browser.call('Target.attachToTarget', targetId=target, flatten=True)['sessionId']
        self.call('Page.enable')
        self.call('Network.enable')
        self.call('Emulation.setDeviceMetricsOverride', width=width, height=height, deviceScaleFactor=1,
                  mobile=width < 600)
        self.call('Emulation.setEmulatedMedia', features=[{'name': 'prefers-color-scheme', 'value': scheme}])
        self.call('Emulation.setScriptExecutionDisabled', value=not scripts)

    def call(self, method, **words):
        return self.browser.call(method, self.session, **words)

    def open(self, url):
        self.call('Page.navigate', url=url)
        self.wait_for('document.readyState === "complete" && location.href !== "about:blank"')

    def value(self, text):
        """What an expression of JavaScript comes to; it is told also where the page's own scripts are off."""
        told = self.call('Runtime.evaluate', expression=text, returnByValue=True, awaitPromise=True)
        if 'exceptionDetails' in told:
            raise Wrong('%s: %s' % (text, told['exceptionDetails']))
        return told['result'].get('value')

    def wait_for(self, text):
        until = time.monotonic() + PATIENCE
        while not self.value(text):
            if time.monotonic() > until:
                raise Wrong('the page is not so: %s\n%s' % (text, self.value('document.body.innerText')))
            time.sleep(0.1)

    def rows(self, table):
        """The cells of a table, by its columns."""
        return self.value('''[...document.querySelectorAll('#%s tbody tr')].map(row => Object.fromEntries(
            [...row.cells].map(cell => [cell.dataset.label, cell.textContent])))''' % table)

    def picture(self, path, most):
        """Writes a picture of the page from its top, at most so high."""
        height = min(most, self.value('document.documentElement.scrollHeight'))
        shot = self.call('Page.captureScreenshot', format='png', captureBeyondViewport=True,
                         clip={'x': 0, 'y': 0, 'width': self.width, 'height': height, 'scale': 1})
        with open(path, 'wb') as file:
            file.write(base64.b64decode(shot['data']))
