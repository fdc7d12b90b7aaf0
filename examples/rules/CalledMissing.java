@InheritableMustCall("close")
class Sender {
    void open() {
    }

    void close() {
    }
}

class CalledMissing {
    static void send(@CalledMethods("open") Sender sender) {
    }

    static void main(String[] args) {
        Sender sender = new Sender();
        send(sender);
        sender.close();
    }
}
