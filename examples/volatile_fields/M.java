// May both threads print 0?
class M {
    static volatile int x;
    static volatile int y;

    public static void main(String[] args) throws InterruptedException {
        First first = new First();
        Second second = new Second();
        first.start();
        second.start();
        first.join();
        second.join();
    }
}

class First extends Thread {
    public void run() {
        M.x = 1;
        System.out.println(M.y);
    }
}

class Second extends Thread {
    public void run() {
        M.y = 1;
        System.out.println(M.x);
    }
}
