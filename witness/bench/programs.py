"""Programs of the shape of ordinary services, for measuring: classes that own a stream, helpers, retries, resources of a `try`.

`write(folder, methods, files, seed)` writes them, with the annotations as sources for compilers, and returns the names of the
files that a checker reads. Every program is accepted by the flow rules.
"""
import os
import random

ANNOTATIONS = {
    "Owning": "",
    "NotOwning": "",
    "MustCallAlias": "",
    "InheritableMustCall": "String[] value() default {};",
    "EnsuresCalledMethods": "String[] value() default {}; String[] methods() default {};",
    "CreatesMustCallFor": 'String[] value() default {"this"};',
}
PACKAGE = "org.checkerframework.checker.mustcall.qual"

COPY = """
  /** Copies a file to another one. */
  static int copy{n}(String from, String to) throws IOException {{
    int count = 0;
    try (InputStream in = new FileInputStream(from);
        OutputStream out = new FileOutputStream(to)) {{
      byte[] buffer = new byte[{size}];
      int read = in.read(buffer);
      while (read > 0) {{
        out.write(buffer);
        count += read;
        if (count > {limit}) {{
          System.out.println("long");
          break;
        }}
        read = in.read(buffer);
      }}
      out.flush();
    }}
    return count;
  }}
"""
RETRY = """
  /** Connects, and tries again where that fails. */
  static boolean ping{n}(String host, int port, int attempts) {{
    int tried = 0;
    while (tried < attempts) {{
      Socket socket = null;
      try {{
        socket = new Socket(host, port + {k});
        OutputStream out = socket.getOutputStream();
        out.write({k});
        out.flush();
        return true;
      }} catch (IOException e) {{
        tried++;
        System.out.println(e.getMessage());
      }} finally {{
        if (socket != null) {{
          try {{
            socket.close();
          }} catch (IOException ignored) {{
            tried++;
          }}
        }}
      }}
    }}
    return false;
  }}
"""
HELPER = """
  /** Sends a text and closes the connection. */
  static void send{n}(@Owning Socket socket, String text) throws IOException {{
    try {{
      OutputStream out = socket.getOutputStream();
      PrintWriter writer = new PrintWriter(out, true);
      writer.println(text);
      if (text.length() > {k}) {{
        writer.println("end");
      }}
    }} finally {{
      socket.close();
    }}
  }}
"""
CALLER = """
  /** Opens a connection for the helper. */
  static int report{n}(String host, String text) throws IOException {{
    int sent = 0;
    for (int i = 0; i < {k}; i++) {{
      if (text.length() > i) {{
        Socket socket = new Socket(host, {port} + i);
        send{m}(socket, text);
        sent++;
      }} else {{
        System.out.println(sent);
      }}
    }}
    return sent;
  }}
"""
COUNT = """
  /** Counts, with no resource at all. */
  static int sum{n}(int from, int to, boolean both) {{
    int total = 0;
    int step = {k};
    for (int i = from; i < to; i++) {{
      if (i % step == 0) {{
        total += i * step;
      }} else if (both && i % 2 == 1) {{
        total -= i;
      }} else {{
        total = total + 1;
      }}
      while (total > {limit}) {{
        total = total / 2;
      }}
    }}
    return total;
  }}
"""
LINES = """
  /** Reads lines until an empty one. */
  static String last{n}(String name) throws IOException {{
    String last = "";
    try (BufferedReader lines = new BufferedReader(new InputStreamReader(new FileInputStream(name)))) {{
      String line = lines.readLine();
      int count = 0;
      while (line != null && !line.isEmpty()) {{
        last = line.trim();
        count++;
        if (count == {limit}) {{
          return last;
        }}
        line = lines.readLine();
      }}
    }} catch (FileNotFoundException e) {{
      System.out.println(e.getMessage());
    }}
    return last;
  }}
"""
OWNER = """
/** Owns the stream of a log file. */
@InheritableMustCall("close")
final class Log{n} implements Closeable {{
  private final @Owning OutputStream out;
  private int count = {k};

  Log{n}(String name) throws IOException {{
    this.out = new FileOutputStream(name);
  }}

  /** Writes a mark. */
  void mark(int what) throws IOException {{
    if (what > {limit}) {{
      out.write(what % 128);
    }} else {{
      out.write(what);
    }}
    count++;
    if (count % 16 == 0) {{
      out.flush();
    }}
  }}

  /** How many marks there are. */
  int count() {{
    return count;
  }}

  @EnsuresCalledMethods(value = "this.out", methods = "close")
  public void close() throws IOException {{
    try {{
      out.flush();
    }} finally {{
      out.close();
    }}
  }}
}}
"""
USER = """
  /** Writes marks into a log. */
  static int log{n}(String name, int marks) throws IOException {{
    Log{m} log = new Log{m}(name);
    try {{
      for (int i = 0; i < marks; i++) {{
        log.mark(i + {k});
        if (i == {limit}) {{
          return log.count();
        }}
      }}
    }} finally {{
      log.close();
    }}
    return marks;
  }}
"""
HEAD = """package {package};

import java.io.*;
import java.net.*;
import {annotations}.*;
"""


def one_file(number, methods, chosen):
    """Returns the text of a file of about so many methods, its class name last."""
    owners, body, made = [], [], 0
    while made < methods:
        kind = chosen.choice(["copy", "retry", "helper", "count", "count", "lines", "owner"])
        values = {
            "n": len(body),
            "m": len(body),
            "k": chosen.randint(2, 9),
            "size": chosen.choice([512, 1024, 4096]),
            "limit": chosen.randint(100, 9999),
            "port": chosen.randint(1000, 9999),
        }
        if kind == "helper":
            body.append(HELPER.format(**values) + CALLER.format(**values))
            made += 2
        elif kind == "owner":
            values["n"] = values["m"] = f"{number}x{len(owners)}"
            owners.append(OWNER.format(**values))
            body.append(USER.format(**{**values, "n": len(body)}))
            made += 5
        else:
            body.append({"copy": COPY, "retry": RETRY, "count": COUNT, "lines": LINES}[kind].format(**values))
            made += 1
    head = HEAD.format(package="service", annotations=PACKAGE)
    return head + "".join(owners) + f"\n/** Part {number} of a service. */\npublic class Service{number} {{" + "".join(body) + "}\n"


def write(folder, methods, files, seed=1):
    """Writes a program of about so many methods in so many files; returns the names of its files and of the annotations'."""
    chosen = random.Random(seed)
    names, annotations = [], []
    for number in range(files):
        name = f"Service{number}.java"
        with open(os.path.join(folder, name), "w", encoding="utf-8") as file:
            file.write(one_file(number, methods // files, chosen))
        names.append(name)
    below = os.path.join(folder, "annotations")
    os.makedirs(below, exist_ok=True)
    for name, members in ANNOTATIONS.items():
        with open(os.path.join(below, name + ".java"), "w", encoding="utf-8") as file:
            file.write(f"package {PACKAGE};\npublic @interface {name} {{ {members} }}\n")
        annotations.append(f"annotations/{name}.java")
    return names, annotations
