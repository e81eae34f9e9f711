; How far each place is from the next, as LLVM IR: epoch e stores one distance.
; No epoch needs another; four distances lie in one line.
; The IR was made by clang --target=riscv32-unknown-elf -march=rv32i -mabi=ilp32 -O1 -S -emit-llvm of six lines of C,
; and the image by tools/image-of distances.ll, both with clang 14.
;
; Report:
;> end done 8
;> at 00000070 0500000000000000070000001c000000
;> at 00000080 02000000150000000000000003000000
;
; image: --epochs 8 --limit 40
; ModuleID = 'distances.c'
source_filename = "distances.c"
target datalayout = "e-m:e-p:32:32-i64:64-n32-S128"
target triple = "riscv32-unknown-unknown-elf"

@places = dso_local local_unnamed_addr constant [8 x i32] [i32 4, i32 9, i32 9, i32 2, i32 30, i32 28, i32 7, i32 7], align 4
@distances = dso_local local_unnamed_addr global [8 x i32] zeroinitializer, align 16

; Function Attrs: mustprogress nofree nosync nounwind willreturn writeonly
define dso_local void @body(i32 noundef %0) local_unnamed_addr #0 {
  %2 = getelementptr inbounds [8 x i32], [8 x i32]* @places, i32 0, i32 %0
  %3 = load i32, i32* %2, align 4, !tbaa !4
  %4 = add i32 %0, 1
  %5 = and i32 %4, 7
  %6 = getelementptr inbounds [8 x i32], [8 x i32]* @places, i32 0, i32 %5
  %7 = load i32, i32* %6, align 4, !tbaa !4
  %8 = sub nsw i32 %3, %7
  %9 = call i32 @llvm.abs.i32(i32 %8, i1 true)
  %10 = getelementptr inbounds [8 x i32], [8 x i32]* @distances, i32 0, i32 %0
  store i32 %9, i32* %10, align 4, !tbaa !4
  ret void
}

; Function Attrs: nofree nosync nounwind readnone speculatable willreturn
declare i32 @llvm.abs.i32(i32, i1 immarg) #1

attributes #0 = { mustprogress nofree nosync nounwind willreturn writeonly "frame-pointer"="none" "min-legal-vector-width"="0" "no-trapping-math"="true" "stack-protector-buffer-size"="8" }
attributes #1 = { nofree nosync nounwind readnone speculatable willreturn }

!llvm.module.flags = !{!0, !1, !2}
!llvm.ident = !{!3}

!0 = !{i32 1, !"wchar_size", i32 4}
!1 = !{i32 1, !"target-abi", !"ilp32"}
!2 = !{i32 1, !"SmallDataLimit", i32 8}
!3 = !{!"Debian clang version 14.0.6"}
!4 = !{!5, !5, i64 0}
!5 = !{!"int", !6, i64 0}
!6 = !{!"omnipotent char", !7, i64 0}
!7 = !{!"Simple C/C++ TBAA"}
