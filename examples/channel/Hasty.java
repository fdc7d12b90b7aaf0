package app;

import java.io.IOException;

class Hasty {
    static void main(String[] args) throws IOException {
        Channel channel = new Channel("house");
        channel.say("hello");
        channel.end();
    }
}
