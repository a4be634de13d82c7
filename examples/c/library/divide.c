/* Unsigned division, which the compiler asks for by these names: the machine divides signed numbers alone. */

unsigned __udiv(unsigned dividend, unsigned divisor)
{
	unsigned quotient;

	if ((int)divisor < 0)
		return dividend >= divisor;
	if ((int)dividend >= 0)
		return (int)dividend / (int)divisor;
	/* twice the quotient of the half is too small by 1 at most */
	quotient = (unsigned)((int)(dividend >> 1) / (int)divisor) << 1;
	return dividend - quotient * divisor >= divisor ? quotient + 1 : quotient;
}

unsigned __urem(unsigned dividend, unsigned divisor)
{
	return dividend - __udiv(dividend, divisor) * divisor;
}
