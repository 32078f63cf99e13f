// Copy, zero fill, compare and UTF-8 of 1 MB: the proved leaves beside Rust. Best of 400 runs.
use std::time::Instant; use std::hint::black_box;
unsafe extern "C" { fn lb_copy(o:*mut u8,ol:usize,s:*const u8,sl:usize); fn lb_zero(o:*mut u8,ol:usize); fn lb_same(a:*const u8,al:usize,b:*const u8,bl:usize)->bool; fn lb_utf8(s:*const u8,sl:usize)->bool; }
fn best<F:FnMut()>(mut f:F)->f64{ let mut b=1e9; for _ in 0..400 { let t=Instant::now(); f(); let d=t.elapsed().as_secs_f64()*1e6; if d<b {b=d;} } b }
fn cut(s:&[u8])->&[u8]{ let mut n=1<<20; while s[n]&0xc0==0x80 {n-=1;} &s[..n] }
fn main(){
  let jp="　或日の暮方の事である。一人の下人が、羅生門の下で雨やみを待つてゐた。廣い門の下には、この男の外に誰もゐない。\n唯、所々丹塗の剝げた、大きな圓柱に、蟋蟀が一匹とまつてゐる。［＃ここから２字下げ］\n".repeat(5000); let jp=cut(jp.as_bytes());
  let asc=b"The quick brown fox jumps over the lazy dog, and runs away.\n".repeat(20000); let asc=&asc[..1<<20];
  let mix="<p>或日の暮方 the year 1915, 羅生門 (Rashomon) の下で</p>\n".repeat(20000); let mix=cut(mix.as_bytes());
  let four="𠀋𡈽𡌛𡑮".repeat(100000); let four=cut(four.as_bytes());
  let two="привет мир ".repeat(100000); let two=cut(two.as_bytes());
  for round in 0..2 { let _=round;
  for (n,s) in [("japanese",jp),("ascii",asc),("mixed",mix),("four",four),("two",two)] {
    assert!(unsafe{lb_utf8(s.as_ptr(),s.len())});
    let a=best(||{black_box(unsafe{lb_utf8(black_box(s.as_ptr()),s.len())});}); let b=best(||{black_box(std::str::from_utf8(black_box(s)).is_ok());});
    println!("utf8 {:9} rattle {:7.1} us rust {:7.1} us ratio {:.2}",n,a,b,a/b);
  }
  let mut out=vec![1u8;1<<20]; let p=out.as_mut_ptr();
  let a=best(||unsafe{lb_copy(black_box(p),1<<20,black_box(jp.as_ptr()),jp.len())}); let mut out2=vec![1u8;1<<20]; let n=jp.len(); let b=best(||black_box(&mut out2)[..n].copy_from_slice(black_box(jp)));
  assert!(&out[..n]==jp);
  println!("copy           rattle {:7.1} us rust {:7.1} us ratio {:.2}",a,b,a/b);
  let c=jp.to_vec(); let a=best(||{black_box(unsafe{lb_same(black_box(jp.as_ptr()),n,black_box(c.as_ptr()),n)});}); let b=best(||{black_box(black_box(jp)==black_box(&c[..]));});
  println!("same           rattle {:7.1} us rust {:7.1} us ratio {:.2}",a,b,a/b);
  let a=best(||unsafe{lb_zero(black_box(p),1<<20)}); let b=best(||black_box(&mut out2)[..].fill(0));
  assert!(out.iter().all(|x|*x==0));
  println!("zero           rattle {:7.1} us rust {:7.1} us ratio {:.2}",a,b,a/b);
  }
}
