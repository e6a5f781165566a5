package shop;

public class Empty { }
