package shop.tax;
public class Tax
{
    static public void main(String [] args)
    {
        int net = 100; int rate = 19;
        System.out.println( net
            + net * rate );
    }
}
