@InheritableMustCall("close") class Sock { void close() {} }
class Main { static void main(String[] args) {
Sock s = new Sock(); s.close();
} }
