/* Of a build that the bench watches. */
int one(void)
{
    return 1;
}
