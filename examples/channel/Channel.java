package app;

import java.io.IOException;
import wire.Wire;

@InheritableMustCall("end")
class Channel {
    private final @Owning Wire wire;

    Channel(String name) throws IOException {
        wire = new Wire(name);
    }

    void say(String text) throws IOException {
        wire.send(text);
    }

    @EnsuresCalledMethods(value = "this.wire", methods = "disconnect")
    void end() {
        wire.disconnect();
    }
}
