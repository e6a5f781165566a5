package shop;

public class Basket {
    public static void main(String[] words) {
        int price = 40;
        int count = 3;
        int sum = (price + 2) * count - (price - (count - 1));
        System.out.println(sum);
    }
}
