! A rod that cools, and a system of equations that is solved: kernels for a program in C (heat.c), in a box.
module heat
    use, intrinsic :: iso_c_binding
    implicit none
contains
    subroutine cool(rod, n, steps) bind(c)
        integer(c_int), value :: n, steps
        real(c_double), intent(inout) :: rod(n)
        integer :: k
        do k = 1, steps
            rod(2:n - 1) = rod(2:n - 1) + 0.25d0 * (rod(1:n - 2) - 2 * rod(2:n - 1) + rod(3:n))
        end do
    end subroutine

    integer(c_int) function solve(a, b, n) bind(c)
        integer(c_int), value :: n
        real(c_double), intent(inout) :: a(n, n), b(n)
        integer :: i, k, best
        real(c_double) :: row(n), one
        do i = 1, n
            best = i - 1 + maxloc(abs(a(i:n, i)), 1)
            if (a(best, i) == 0) then
                solve = i
                return
            end if
            row = a(i, :); a(i, :) = a(best, :); a(best, :) = row
            one = b(i); b(i) = b(best); b(best) = one
            do k = i + 1, n
                one = a(k, i) / a(i, i)
                a(k, i:n) = a(k, i:n) - one * a(i, i:n)
                b(k) = b(k) - one * b(i)
            end do
        end do
        do i = n, 1, -1
            b(i) = (b(i) - dot_product(a(i, i + 1:n), b(i + 1:n))) / a(i, i)
        end do
        solve = 0
    end function
end module
