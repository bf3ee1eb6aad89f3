// a text
	int x y;
