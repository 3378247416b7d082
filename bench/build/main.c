/* Of a build that the bench watches. */
int one(void);

int main(void)
{
    return one() - 1;
}
