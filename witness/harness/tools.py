"""The Java machine and the command `rlc`, as a worker uses them."""

import os
import shutil
import subprocess
import tempfile


class Tools:
    def __init__(self, rlc, classes):
        self.command = rlc
        self.folder = tempfile.mkdtemp(prefix='witness-')
        self.classes = classes
        self.server = None

    def close(self):
        if self.server:
            self.server.stdin.close()
            self.server.wait()
        shutil.rmtree(self.folder, ignore_errors=True)

    # The Java machine

    def start(self):
        options = ['-Xss8m', '-Xmx700m', '-XX:+UseSerialGC', '-XX:TieredStopAtLevel=1', '-XX:+UnlockDiagnosticVMOptions',
                   '-XX:-BytecodeVerificationRemote', '--add-exports', 'jdk.compiler/com.sun.tools.javac.api=ALL-UNNAMED']
        self.server = subprocess.Popen(['java'] + options + ['-cp', self.classes, 'witness.Server'], stdin=subprocess.PIPE,
                                       stdout=subprocess.PIPE)

    def ask(self, parts):
        if self.server is None or self.server.poll() is not None:
            self.start()
        self.server.stdin.write(b''.join(parts))
        self.server.stdin.flush()
        lines = []
        for line in iter(self.server.stdout.readline, b''):
            if line == b'.\n':
                return lines
            lines.append(line.decode().rstrip('\n'))
        raise RuntimeError(f'the Java machine ended with status {self.server.wait()}, after {lines[-3:]}')

    @staticmethod
    def text(value):
        data = value.encode()
        return b'%d\n' % len(data) + data

    def files(self, files):
        return [b'%d\n' % len(files)] + [name.encode() + b'\n' + self.text(value) for name, value in files.items()]

    def check(self, library, files):
        return self.ask([b'check\n'] + self.files(library) + self.files(files))

    def run(self, program, lists):
        """For each list of choices the lines, the number of choices used and the end; or why the program was not compiled."""
        rows = [' '.join([str(args)] + [f'{way} {value}' for way, value in made]) for args, made in lists]
        lines = self.ask([b'run\n'] + self.files(program.library.java_files()) + self.files(program.java_files())
                         + [self.text(program.library.table()), program.main_class().encode() + b'\n', b'%d\n' % len(rows)]
                         + [row.encode() + b'\n' for row in rows])
        answers, trace = [], []
        for line in lines:
            if line.startswith(('error\t', 'crash')):
                return line
            if line.startswith('run '):
                words = line.split(' ', 2)
                if words[1] == 'endless':
                    return line
                answers.append((trace, int(words[1]), words[2]))
                trace = []
            else:
                trace.append(line)
        return answers

    # The command

    def plain(self, words):
        done = subprocess.run([self.command] + words, cwd=self.folder, capture_output=True, timeout=120)
        return done.returncode, done.stdout.decode(errors='replace')

    def rlc(self, files, words, settings, more):
        """The status and the text of the command over these files."""
        shutil.rmtree(self.folder)
        os.mkdir(self.folder)
        for name, text in {**files, **more, 'settings.toml': settings}.items():
            path = f'{self.folder}/{name}'
            os.makedirs(os.path.dirname(path), exist_ok=True)
            with open(path, 'w') as out:
                out.write(text)
        names = sorted(files, key=lambda name: not name.endswith('.astub'))
        choices = ['--choices', 'c'] if 'c' in more else []
        done = subprocess.run([self.command] + words + choices + ['--config', 'settings.toml'] + names, cwd=self.folder,
                              capture_output=True, timeout=120)
        return done.returncode, done.stdout.decode(errors='replace')
